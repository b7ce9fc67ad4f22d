//! The one comparing step: a call is put to two sides, and all that they answer and leave is equal.

use crate::board::Score;
use crate::bytes::Bytes;
use crate::counters::Counters;
use crate::domain::LONGEST;
use crate::models::{Model, SYMBOL_WAYS};
use crate::report;
use std::fmt::Debug;
use std::panic::{catch_unwind, AssertUnwindSafe};

/// What a call answers: document 01's number of the refusal or 0, the value, the state.
#[repr(C)]
#[derive(Clone, Copy, Debug, PartialEq, Eq)]
pub struct Answer<S> {
    pub refusal: u32,
    pub value: u32,
    pub state: S,
}

/// A kind of coder: its states, and what is asked of them.
pub trait Kind: Sized {
    type State: Copy + PartialEq + Debug;
    type Ask<'a>: Copy + Debug;

    const NAME: &'static str;
    /// Each call with the refusals that it can answer.
    const CALLS: &'static [(&'static str, &'static [usize])];
    /// The calls of include/tignarops.h, in the order of `CALLS`.
    const EXPORTS: &'static [&'static str];
    /// The place of the account in `CALLS`.
    const ACCOUNT: usize = 1;
    /// Ways that the symbols of accepted calls can take.
    const SYMBOLS: &'static [&'static str] = SYMBOL_WAYS;
    /// Ways that an accepted call can take, besides those of its symbol.
    const BRANCHES: &'static [&'static str];
    /// The places in `BRANCHES` of ways that a comparison must take often.
    const OFTEN: &'static [usize] = &[];

    /// The place of the call in `CALLS`.
    fn call(ask: Self::Ask<'_>) -> usize;
    /// Lends the symbol that an accepted call read or wrote, if it did.
    fn symbol(ask: Self::Ask<'_>, answer: &Answer<Self::State>, lend: impl FnOnce(Model, u32));
    /// Marks the places in `BRANCHES` of the ways that an accepted call took.
    fn took(
        length: usize,
        before: &Self::State,
        ask: Self::Ask<'_>,
        answer: &Answer<Self::State>,
        mark: impl FnMut(usize, bool),
    );
    /// Where in the bytes the state reads or writes next, for a report.
    fn places(state: &Self::State) -> [usize; 2];
}

/// An implementation of a kind's calls, on bytes that it may write.
pub type Side<K> =
    for<'a> fn(&mut [u8], <K as Kind>::State, <K as Kind>::Ask<'a>) -> Answer<<K as Kind>::State>;

/// The sides of a comparison: our exported calls, and the crate's and libopus's behind document 01's
/// table of refusals.
pub trait Sides: Kind {
    fn ours(bytes: &mut [u8], state: Self::State, ask: Self::Ask<'_>) -> Answer<Self::State>;
    fn unopus(bytes: &mut [u8], state: Self::State, ask: Self::Ask<'_>) -> Answer<Self::State>;
    #[cfg(libopus)]
    fn libopus(bytes: &mut [u8], state: Self::State, ask: Self::Ask<'_>) -> Answer<Self::State>;
    /// The number of document 01's table that refuses the call, or 0.
    fn refusal(bytes: &[u8], state: &Self::State, ask: Self::Ask<'_>) -> u32;
}

/// Where the calls of a plan go: to a comparison or into a record.
pub trait Sink<K: Kind> {
    /// The answer to go on with, and with what it leaves in the bytes: the other side's, where two differ.
    /// An error ends the plan.
    fn put(
        &mut self,
        bytes: &mut [u8],
        state: K::State,
        ask: K::Ask<'_>,
    ) -> Result<Answer<K::State>, String>;

    fn counters(&self) -> &Counters<K>;
}

/// A copy of the bytes for each of two sides.
pub struct Copies {
    ours: Bytes,
    theirs: Bytes,
}

impl Default for Copies {
    fn default() -> Self {
        Copies {
            ours: [0; LONGEST + 1],
            theirs: [0; LONGEST + 1],
        }
    }
}

impl Copies {
    /// What the other side answers to the call, with what it leaves in the bytes, and whether ours is the
    /// same; an error where the other side panics and leaves nothing to go on with.
    pub fn put<K: Kind, S: PartialEq + Debug>(
        &mut self,
        score: &mut Score,
        bytes: &mut [u8],
        (state, ask): (K::State, &dyn Debug),
        ours: impl FnOnce(&mut [u8]) -> Answer<S>,
        theirs: impl FnOnce(&mut [u8]) -> Answer<S>,
    ) -> Result<(Answer<S>, bool), String> {
        let our_bytes = &mut self.ours[..bytes.len()];
        let their_bytes = &mut self.theirs[..bytes.len()];
        our_bytes.copy_from_slice(bytes);
        their_bytes.copy_from_slice(bytes);
        let ours = ours(our_bytes);
        // The crate panics where an index or, with overflow checks, a sum leaves its range.
        let theirs = catch_unwind(AssertUnwindSafe(|| theirs(their_bytes))).ok();
        let same = theirs.as_ref() == Some(&ours) && our_bytes == their_bytes;
        let refusal = theirs.as_ref().map_or(0, |answer| answer.refusal);
        score.count(refusal, same, || {
            let (ours, theirs) = ((Some(&ours), &*our_bytes), (theirs.as_ref(), &*their_bytes));
            report::difference::<K, S>(bytes, state, ask, ours, theirs)
        });
        bytes.copy_from_slice(their_bytes);
        let answer =
            theirs.ok_or_else(|| format!("ENDED, since the other side panics: {ask:?}"))?;
        Ok((answer, same))
    }
}

/// Two sides, and what was counted of their calls.
pub struct Pair<K: Kind> {
    ours: Side<K>,
    theirs: Side<K>,
    counters: Counters<K>,
    copies: Copies,
}

impl<K: Kind> Pair<K> {
    pub fn new(ours: Side<K>, theirs: Side<K>) -> Self {
        Pair {
            ours,
            theirs,
            counters: Counters::new(),
            copies: Copies::default(),
        }
    }
}

impl<K: Kind> Sink<K> for Pair<K> {
    fn put(
        &mut self,
        bytes: &mut [u8],
        state: K::State,
        ask: K::Ask<'_>,
    ) -> Result<Answer<K::State>, String> {
        let (ours, theirs) = (self.ours, self.theirs);
        let (answer, same) = self.copies.put::<K, _>(
            self.counters.score(ask),
            bytes,
            (state, &ask),
            |bytes| ours(bytes, state, ask),
            |bytes| theirs(bytes, state, ask),
        )?;
        if same {
            self.counters.mark(bytes.len(), &state, ask, &answer);
        }
        Ok(answer)
    }

    fn counters(&self) -> &Counters<K> {
        &self.counters
    }
}

/// A comparison with libopus, which refuses nothing: our side answers alone what document 01 refuses,
/// and the account, since libopus's ec_tell is inline.
#[cfg(libopus)]
pub struct Accepted<K: Kind>(Pair<K>);

#[cfg(libopus)]
impl<K: Sides> Default for Accepted<K> {
    fn default() -> Self {
        Accepted(Pair::new(K::ours, K::libopus))
    }
}

#[cfg(libopus)]
impl<K: Sides> Sink<K> for Accepted<K> {
    fn put(
        &mut self,
        bytes: &mut [u8],
        state: K::State,
        ask: K::Ask<'_>,
    ) -> Result<Answer<K::State>, String> {
        if K::call(ask) == K::ACCOUNT || K::refusal(bytes, &state, ask) != 0 {
            return Ok(K::ours(bytes, state, ask));
        }
        self.0.put(bytes, state, ask)
    }

    fn counters(&self) -> &Counters<K> {
        self.0.counters()
    }
}

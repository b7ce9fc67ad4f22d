//! The calls on a frame: ours beside the crate's and libopus's.

pub mod indices;
#[cfg(libopus)]
pub mod libopus;
mod listed;
mod plans;
pub mod pulses;
mod tally;
pub mod whole;
pub mod written;

#[cfg(libopus)]
use crate::board::LIBOPUS;
use crate::board::{Board, CRATE};
use crate::coder::Coder;
use crate::compare::{Answer, Kind};
use crate::hold::{Extent, Outcome};
use crate::rng::Rng;
use std::fmt::Debug;

pub use listed::files;
pub use tally::{compared, Tally};

/// The rate in kHz and the number of subframes.
#[derive(Clone, Copy, Debug)]
pub struct Size {
    pub khz: u32,
    pub subframes: u32,
}

impl Size {
    pub fn all() -> impl Iterator<Item = Size> {
        let each = |khz| [2, 4].map(|subframes| Size { khz, subframes });
        [8, 12, 16].into_iter().flat_map(each)
    }

    /// Each takes one of the two out of its range.
    const OUTSIDE: [fn(&mut Size); 6] = [
        |size| size.khz -= 1,
        |size| size.khz += 1,
        |size| size.khz = u32::MAX,
        |size| size.subframes -= 1,
        |size| size.subframes += 1,
        |size| size.subframes = u32::MAX,
    ];

    /// "Frame length is 5 x kHz x subframes."
    fn length(self) -> i32 {
        (5 * self.khz * self.subframes) as i32
    }
}

/// What a call on a frame is given besides bytes and state.
pub trait Given: Clone + Debug + 'static {
    /// Every choice of numbers that document 01 accepts.
    fn all() -> Vec<Self>;
    /// The numbers, those of the size first.
    fn numbers(&self) -> [u32; 5];
    fn size(&mut self) -> &mut Size;
    /// Each takes one number or length, besides the size, out of its range, most often by one.
    fn outside() -> Vec<Change<Self>>;
}

pub type Change<G> = Box<dyn Fn(&mut G)>;

/// A call on a frame.
pub trait Frame {
    /// The reader or the writer.
    type Coder: Coder;
    type Given: Given;
    /// What the call hands back besides the state.
    type Held: PartialEq + Debug;

    /// As include/tignarops.h names it.
    const NAME: &'static str;
    /// Ways that an accepted call can take, in lists one after the other.
    const WAYS: &'static [&'static [&'static str]];
    /// The numbers of document 01's table that can refuse it.
    const REFUSALS: &'static [usize];

    /// Gives something else besides the numbers, at random.
    fn refill(call: &mut Self::Given, rng: &mut Rng);
    /// A share, 1 for all, of the calls at the limits of what is given besides the numbers.
    fn at_limits(_: &mut Rng, _share: u32, _: &mut Put<Self>) -> Outcome {
        Ok(())
    }
    /// What a refused call hands back.
    fn held(call: &Self::Given) -> Self::Held;

    fn refusal(call: &Self::Given, bytes: &[u8], state: &StateOf<Self>) -> u32;
    fn ours(call: &Self::Given, bytes: &mut [u8], state: StateOf<Self>) -> Answer<Left<Self>>;
    /// The crate's call, which document 01 accepts.
    fn unopus(call: &Self::Given, bytes: &mut [u8], state: StateOf<Self>) -> Left<Self>;

    /// Marks the places in `WAYS` of the ways that an accepted call took.
    fn took(
        call: &Self::Given,
        bytes: &mut [u8],
        before: StateOf<Self>,
        after: &Left<Self>,
        mark: impl FnMut(usize, bool),
    );
}

/// A call on a frame that libopus has too.
#[cfg(libopus)]
pub trait InLibopus: Frame {
    /// libopus's call, which document 01 accepts.
    fn libopus(call: &Self::Given, bytes: &mut [u8], state: StateOf<Self>) -> Left<Self>;
}

/// Takes the calls of a plan.
pub type Put<'a, C> = dyn FnMut(&mut [u8], StateOf<C>, &<C as Frame>::Given) -> Outcome + 'a;

pub type StateOf<C> = <<C as Frame>::Coder as Kind>::State;

/// The state and what else the call hands back.
pub type Left<C> = (StateOf<C>, <C as Frame>::Held);

/// The crate's call or libopus's.
pub type Side<C> = fn(&<C as Frame>::Given, &mut [u8], StateOf<C>) -> Left<C>;

pub fn hold(extent: &Extent, board: &mut Board) {
    to_both::<indices::Read>(extent, board);
    to_both::<pulses::Read>(extent, board);
    to_the_crate::<indices::Write>(extent, board);
    to_both::<pulses::Write>(extent, board);
    pulses::crate_writer::hold(extent, board);
    whole::hold(extent, board);
}

#[cfg(libopus)]
fn to_both<C: InLibopus>(extent: &Extent, board: &mut Board) {
    to_the_crate::<C>(extent, board);
    to_libopus::<C>(extent, board);
}

#[cfg(not(libopus))]
fn to_both<C: Frame>(extent: &Extent, board: &mut Board) {
    to_the_crate::<C>(extent, board);
}

fn to_the_crate<C: Frame>(extent: &Extent, board: &mut Board) {
    let (mut tally, mut rng) = (Tally::<C>::default(), Rng::new(extent.seed));
    let mut put = |bytes: &mut [u8], state, call: &C::Given| {
        let refusal = C::refusal(call, bytes, &state);
        tally.compare(bytes, state, call, (C::unopus, refusal))
    };
    let outcome = plans::at_random::<C>(&mut rng, extent.cases, &mut put)
        .and_then(|()| plans::refused::<C>(&mut rng, &mut put))
        .and_then(|()| C::at_limits(&mut rng, extent.share, &mut put));
    board.check(C::NAME, outcome);
    tally.settle(CRATE, C::REFUSALS, board);
}

/// The calls that document 01 accepts: libopus refuses nothing.
#[cfg(libopus)]
fn to_libopus<C: InLibopus>(extent: &Extent, board: &mut Board) {
    let (mut tally, mut rng) = (Tally::<C>::default(), Rng::new(extent.seed));
    let mut put = |bytes: &mut [u8], state, call: &C::Given| match C::refusal(call, bytes, &state) {
        0 => tally.compare(bytes, state, call, (C::libopus, 0)),
        _ => Ok(()),
    };
    let outcome = plans::at_random::<C>(&mut rng, extent.cases, &mut put);
    board.check(C::NAME, outcome);
    tally.settle(LIBOPUS, &[], board);
}

/// The four calls, with the crate's alone.
pub fn calls_to_the_crate(extent: &Extent, board: &mut Board) {
    to_the_crate::<indices::Read>(extent, board);
    to_the_crate::<pulses::Read>(extent, board);
    to_the_crate::<indices::Write>(extent, board);
    to_the_crate::<pulses::Write>(extent, board);
}

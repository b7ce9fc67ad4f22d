//! What the calls of a comparison were: a counter that stays 0 says that its way was never compared.

use super::{Frame, Left, Side, StateOf};
use crate::board::{Board, Score};
use crate::compare::{Answer, Copies};
use crate::domain;
use crate::hold::Outcome;
use crate::report;
use std::marker::PhantomData;

pub struct Tally<C> {
    score: Score,
    ways: Vec<u64>,
    copies: Copies,
    call: PhantomData<C>,
}

impl<C: Frame> Default for Tally<C> {
    fn default() -> Self {
        Tally {
            score: Score::default(),
            ways: vec![0; C::WAYS.concat().len()],
            copies: Copies::default(),
            call: PhantomData,
        }
    }
}

/// Puts a call to our side, and to the other behind document 01's table of refusals.
pub fn compared<C: Frame>(
    copies: &mut Copies,
    score: &mut Score,
    bytes: &mut [u8],
    (state, call): (StateOf<C>, &C::Given),
    (side, refusal): (Side<C>, u32),
) -> Result<(Answer<Left<C>>, bool), String> {
    copies.put::<C::Coder, _>(
        score,
        bytes,
        (state, call),
        |bytes| C::ours(call, bytes, state),
        |bytes| {
            let unchanged = (state, C::held(call));
            domain::guarded(refusal, unchanged, || (0, side(call, bytes, state)))
        },
    )
}

impl<C: Frame> Tally<C> {
    pub fn compare(
        &mut self,
        bytes: &mut [u8],
        state: StateOf<C>,
        call: &C::Given,
        side: (Side<C>, u32),
    ) -> Outcome {
        let (copies, score) = (&mut self.copies, &mut self.score);
        let (answer, same) = compared::<C>(copies, score, bytes, (state, call), side)?;
        if same {
            self.mark(bytes, state, call, &answer);
        }
        Ok(())
    }

    /// What the crate answers behind document 01's table of refusals.
    pub fn of_the_crate(
        &mut self,
        bytes: &mut [u8],
        state: StateOf<C>,
        call: &C::Given,
    ) -> Answer<Left<C>> {
        let refusal = C::refusal(call, bytes, &state);
        let unchanged = (state, C::held(call));
        let answer = domain::guarded(refusal, unchanged, || (0, C::unopus(call, bytes, state)));
        self.count(bytes, state, call, &answer);
        answer
    }

    /// Counts a call that was not compared.
    pub fn count(
        &mut self,
        bytes: &mut [u8],
        before: StateOf<C>,
        call: &C::Given,
        answer: &Answer<Left<C>>,
    ) {
        self.score.count(answer.refusal, true, String::new);
        self.mark(bytes, before, call, answer);
    }

    fn mark(
        &mut self,
        bytes: &mut [u8],
        before: StateOf<C>,
        call: &C::Given,
        answer: &Answer<Left<C>>,
    ) {
        if answer.refusal == 0 {
            let ways = &mut self.ways;
            C::took(call, bytes, before, &answer.state, |way, taken| {
                ways[way] += u64::from(taken)
            });
        }
    }

    /// The ways, each with how often it was taken.
    fn ways(&self) -> impl Iterator<Item = (&'static str, u64)> + '_ {
        C::WAYS.concat().into_iter().zip(self.ways.iter().copied())
    }

    pub fn all(&self) -> u64 {
        self.score.cases()
    }

    pub fn settle(&self, with: &'static str, refusals: &[usize], board: &mut Board) {
        let what = format!("{}, {with}", C::NAME);
        board.note(format!("{what}: {}", report::counts(self.ways())));
        board.row(C::NAME, with, &self.score);
        board.covered(&what, self.missing(refusals));
    }

    /// The ways, and the wanted refusals, that never occurred.
    pub fn missing<'a>(&'a self, refusals: &'a [usize]) -> impl Iterator<Item = String> + 'a {
        let refusals = refusals.iter().filter(|&&r| self.score.answered(r) == 0);
        let refusals = refusals.map(|r| format!("refused with {r}"));
        let ways = self.ways().filter(|(_, n)| *n == 0);
        ways.map(|(way, _)| way.to_string()).chain(refusals)
    }
}

//! Our calls and the crate's, or on whole packets the rewrite's and libopus's, which answer the same.

use oracle::board::{Board, Score, CRATE};
use oracle::compare::{Answer, Copies, Sides};
use oracle::frames::{compared, Frame, Left, StateOf};
use oracle::hold::Outcome;
use oracle::packets::Reading;
use std::collections::BTreeMap;

#[derive(Default)]
pub struct Both {
    copies: Copies,
    /// By the names of the calls.
    scores: BTreeMap<&'static str, Score>,
    packets: Reading,
}

impl Both {
    /// A call on a frame.
    pub fn frame<C: Frame>(
        &mut self,
        bytes: &mut [u8],
        state: StateOf<C>,
        call: &C::Given,
    ) -> Answer<Left<C>> {
        let score = self.scores.entry(C::NAME).or_default();
        let side = (C::unopus as _, C::refusal(call, bytes, &state));
        let answer = compared::<C>(&mut self.copies, score, bytes, (state, call), side);
        held(score, answer)
    }

    /// A call of the reader or of the writer.
    pub fn coder<K: Sides>(
        &mut self,
        bytes: &mut [u8],
        state: K::State,
        ask: K::Ask<'_>,
    ) -> Answer<K::State> {
        let score = self.scores.entry(K::EXPORTS[K::call(ask)]).or_default();
        let answer = self.copies.put::<K, _>(
            score,
            bytes,
            (state, &ask),
            |bytes| K::ours(bytes, state, ask),
            |bytes| K::unopus(bytes, state, ask),
        );
        held(score, answer)
    }

    pub fn read_back(&mut self, outcome: Outcome) {
        let score = self.scores.entry("packets read back").or_default();
        score.outcome(outcome);
        abort_at_the_first(score);
    }

    pub fn packet(&mut self, packet: &[u8]) {
        self.packets.put(packet);
        let scores = self.packets.scores();
        scores.for_each(|(_, score)| abort_at_the_first(score));
    }

    pub fn show(&self) {
        let mut board = Board::quiet();
        for (call, score) in &self.scores {
            board.row(call, CRATE, score);
        }
        self.packets.rows(&mut board);
        board.show();
    }
}

fn held<S>(score: &Score, answer: Result<(Answer<S>, bool), String>) -> Answer<S> {
    abort_at_the_first(score);
    answer.unwrap().0
}

fn abort_at_the_first(score: &Score) {
    if let Some(first) = score.first() {
        eprintln!("{first}");
        std::process::abort();
    }
}

//! Packets put to our reading, to the rewrite's and to libopus's.

#[cfg(libopus)]
use super::libopus;
use super::ours::{self, Packet};
use super::{answers, rewrite};
#[cfg(libopus)]
use crate::board::LIBOPUS;
use crate::board::{Board, Score, REFUSALS, REWRITE};
use crate::hold::Outcome;
use crate::report;

const NAME: &str = "tg_packet_read";

const REFUSED: [usize; 3] = [1, 10, 11];

/// Each of them, and 0 for an accepted packet, is to be answered more often.
const FEW: u64 = 1000;

/// What packets are made like, and all the answers that such have.
pub type Kind = (&'static str, &'static [usize]);

#[derive(Default)]
pub struct Reading {
    rewrite: Score,
    #[cfg(libopus)]
    libopus: Score,
    /// The kinds so far, each with how often it had each answer.
    kinds: Vec<(Kind, [u64; REFUSALS])>,
}

impl Reading {
    /// The packets from now on are of this kind.
    pub fn begin(&mut self, kind: Kind) {
        self.kinds.push((kind, [0; REFUSALS]));
    }

    pub fn put(&mut self, packet: &[u8]) {
        let (ours, theirs) = (ours::read(packet), rewrite::read(packet));
        compare(&mut self.rewrite, packet, ours, theirs);
        #[cfg(libopus)]
        compare(&mut self.libopus, packet, ours, libopus::read(packet));
        if let Some((_, answers)) = self.kinds.last_mut() {
            answers[theirs.refusal as usize] += 1;
        }
    }

    pub fn settle(&self, board: &mut Board) {
        let accepted = self.kinds.iter().map(|((name, _), n)| (name, n[0]));
        board.note(format!(
            "{NAME}: {}; accepted of each kind: {}",
            answers(&self.rewrite, &REFUSED),
            report::counts(accepted)
        ));
        self.rows(board);
        board.covered(NAME, self.missing());
        board.check(NAME, self.as_intended());
    }

    pub fn rows(&self, board: &mut Board) {
        for (with, score) in self.scores() {
            board.row(NAME, with, score);
        }
    }

    /// By the side that packets were put to.
    pub fn scores(&self) -> impl Iterator<Item = (&'static str, &Score)> {
        let scores = [
            (REWRITE, &self.rewrite),
            #[cfg(libopus)]
            (LIBOPUS, &self.libopus),
        ];
        scores.into_iter()
    }

    /// The answers that came seldom, and those that a kind is to have and never had.
    fn missing(&self) -> impl Iterator<Item = String> + '_ {
        let few = [0].into_iter().chain(REFUSED);
        let few = few.filter(|&answer| self.rewrite.answered(answer) <= FEW);
        let few = few.map(|answer| format!("answered with {answer} more than {FEW} times"));
        let never = self.kinds.iter().flat_map(|((name, answers), n)| {
            let never = answers.iter().filter(|&&answer| n[answer] == 0);
            never.map(move |answer| format!("{name}, answered with {answer}"))
        });
        few.chain(never)
    }

    /// That no kind had an answer that such packets do not have.
    fn as_intended(&self) -> Outcome {
        let other = |((_, answers), n): &&(Kind, [u64; REFUSALS])| {
            (0..REFUSALS).any(|answer| n[answer] > 0 && !answers.contains(&answer))
        };
        match self.kinds.iter().find(other) {
            Some(((name, _), n)) => Err(format!("{name}: ANSWERED OTHERWISE: {n:?}")),
            None => Ok(()),
        }
    }
}

fn compare(score: &mut Score, packet: &[u8], ours: Packet, theirs: Packet) {
    score.count(theirs.refusal, ours == theirs, || {
        format!(
            "DIFFER: {} bytes: {}\n    ours:   {ours:?}\n    theirs: {theirs:?}",
            packet.len(),
            report::hex(packet)
        )
    });
}

//! Holds our reader, our writer and our line spectra to the crate's and to libopus's.

#[cfg(libopus)]
use crate::board::LIBOPUS;
use crate::board::{Board, CRATE};
#[cfg(libopus)]
use crate::compare::Accepted;
use crate::compare::{Pair, Sides, Sink};
use crate::report;
use crate::rng::Rng;
use std::ops::Range;

/// A way that must be taken often is taken by more than one in so many cases: by 10,000 in the gate.
const ONE_IN: u64 = 20;

/// What a plan comes to: an error is an answer that the plan rules out.
pub type Outcome = Result<(), String>;

/// How much is compared.
#[derive(Clone, Copy)]
pub struct Extent {
    /// Of each exported call at random.
    pub cases: u64,
    /// A share, 1 for all, of the cases that are there whatever that number is.
    pub share: u32,
    pub seed: u64,
}

impl Extent {
    /// A share of so many rounds.
    pub fn rounds(&self, all: u32) -> Range<u32> {
        0..(all / self.share).max(1)
    }
}

/// What the calls of a plan are, and putting them to a sink.
pub type Plan<K> = (
    &'static str,
    fn(&mut dyn Sink<K>, &mut Rng, &Extent) -> Outcome,
);

/// A kind of coder with the calls that are compared.
pub trait Plans: Sides + 'static {
    const PLANS: &'static [Plan<Self>];
}

pub fn to_the_crate<K: Plans>(extent: &Extent, board: &mut Board) {
    let mut pair = Pair::<K>::new(K::ours, K::unopus);
    board.check(K::NAME, run(&mut pair, extent));
    settle(&pair, CRATE, extent, board, |_, _| true);
}

/// The calls that document 01 accepts and libopus has a function for.
#[cfg(libopus)]
pub fn to_libopus<K: Plans>(extent: &Extent, board: &mut Board) {
    let mut accepted = Accepted::<K>::default();
    board.check(K::NAME, run(&mut accepted, extent));
    let has = |call, refusal| refusal == 0 && call != K::ACCOUNT;
    settle(&accepted, LIBOPUS, extent, board, has);
}

fn run<K: Plans>(sink: &mut dyn Sink<K>, extent: &Extent) -> Outcome {
    let mut rng = Rng::new(extent.seed);
    for (what, plan) in K::PLANS {
        plan(sink, &mut rng, extent).map_err(|e| format!("{what}: {e}"))?;
    }
    Ok(())
}

fn settle<K: Plans>(
    sink: &dyn Sink<K>,
    with: &'static str,
    extent: &Extent,
    board: &mut Board,
    wanted: impl Fn(usize, usize) -> bool + 'static,
) {
    let what = format!("{}, {with}", K::NAME);
    let counters = sink.counters();
    board.note(format!("{what}: {}", report::counts(counters.ways())));
    for (call, score) in K::EXPORTS.iter().zip(counters.scores()) {
        if score.cases() > 0 {
            board.row(call, with, score);
        }
    }
    let few = extent.cases / ONE_IN;
    if !K::OFTEN.is_empty() {
        let often = report::counts(counters.often());
        board.note(format!("{what}, more than {few} calls each: {often}"));
    }
    let seldom = counters.often().filter(|(_, n)| *n <= few);
    let seldom = seldom.map(|(way, _)| format!("more than {few} calls {way}"));
    board.covered(&what, counters.missing(wanted).chain(seldom));
}

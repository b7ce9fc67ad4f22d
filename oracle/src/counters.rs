//! What the calls of a comparison were: a counter that stays 0 says that its way was never compared.

use crate::board::Score;
use crate::compare::{Answer, Kind};
use std::marker::PhantomData;

pub struct Counters<K> {
    scores: Vec<Score>,
    branches: Vec<u64>,
    kind: PhantomData<K>,
}

impl<K: Kind> Counters<K> {
    pub fn new() -> Self {
        Counters {
            scores: vec![Score::default(); K::CALLS.len()],
            branches: vec![0; K::SYMBOLS.len() + K::BRANCHES.len()],
            kind: PhantomData,
        }
    }

    pub fn score(&mut self, ask: K::Ask<'_>) -> &mut Score {
        &mut self.scores[K::call(ask)]
    }

    /// Marks the ways of a call.
    pub fn mark(
        &mut self,
        length: usize,
        before: &K::State,
        ask: K::Ask<'_>,
        answer: &Answer<K::State>,
    ) {
        if answer.refusal != 0 {
            return;
        }
        let (symbol, own) = self.branches.split_at_mut(K::SYMBOLS.len());
        K::symbol(ask, answer, |model, value| {
            model.ways(value, &mut |way, taken| {
                symbol[way as usize] += u64::from(taken)
            })
        });
        K::took(length, before, ask, answer, |way, taken| {
            own[way] += u64::from(taken)
        });
    }

    /// The ways, each with how often it was taken.
    pub fn ways(&self) -> impl Iterator<Item = (&'static str, u64)> + '_ {
        let names = K::SYMBOLS.iter().chain(K::BRANCHES);
        names.copied().zip(self.branches.iter().copied())
    }

    /// The ways that must be taken often, each with how often it was.
    pub fn often(&self) -> impl Iterator<Item = (&'static str, u64)> + '_ {
        let own = &self.branches[K::SYMBOLS.len()..];
        K::OFTEN.iter().map(|&way| (K::BRANCHES[way], own[way]))
    }

    /// In the order of the kind's calls.
    pub fn scores(&self) -> &[Score] {
        &self.scores
    }

    /// The ways, and the wanted answers of each call, that never occurred.
    pub fn missing(
        &self,
        wanted: impl Fn(usize, usize) -> bool + 'static,
    ) -> impl Iterator<Item = String> + '_ {
        let calls = K::CALLS.iter().zip(K::EXPORTS).zip(&self.scores);
        let answers = calls
            .enumerate()
            .flat_map(|(call, (((_, refusals), name), score))| {
                let possible = [0].into_iter().chain(refusals.iter().copied());
                possible.map(move |refusal| (call, refusal, *name, score))
            });
        let answers = answers
            .filter(move |&(call, refusal, _, score)| {
                wanted(call, refusal) && score.answered(refusal) == 0
            })
            .map(|(_, refusal, name, _)| format!("{name} answered with {refusal}"));
        let ways = self.ways().filter(|(_, n)| *n == 0);
        answers.chain(ways.map(|(way, _)| way.to_string()))
    }
}

impl<K: Kind> Default for Counters<K> {
    fn default() -> Self {
        Self::new()
    }
}

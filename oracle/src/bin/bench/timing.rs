//! Time: the best of many rounds in which the sides take turns.

use crate::measured::Values;
use crate::row::{Row, Work};
use std::hint::black_box;
use std::time::{Duration, Instant};

/// A row's inputs are timed in so many parts, and each part's best counts: a part is short enough to be
/// done without an interruption, and all parts are too many for a processor to know their branches from
/// the round before.
pub const PARTS: usize = 16;

type Best = [Duration; PARTS];

/// BENCH_ROUNDS says how many.
pub fn rounds() -> u32 {
    let rounds = std::env::var("BENCH_ROUNDS");
    rounds.map_or(60, |rounds| {
        rounds.parse().expect("BENCH_ROUNDS is a number")
    })
}

/// Nanoseconds a unit, of each side of each row. A round has all rows, so that a slow while of the
/// machine falls on all of them.
pub fn times(rows: &mut [Row], rounds: u32) -> Vec<Values> {
    let none = |row: &Row| {
        let none = |work: &Option<Work>| work.as_ref().map(|_| [Duration::MAX; PARTS]);
        row.works.iter().map(none).collect()
    };
    let mut best: Vec<Vec<Option<Best>>> = rows.iter().map(none).collect();
    for _ in 0..rounds {
        for (row, best) in rows.iter_mut().zip(&mut best) {
            let works = row.works.iter_mut().flatten();
            for (work, best) in works.zip(best.iter_mut().flatten()) {
                time(work, row.inputs, best);
            }
        }
    }
    let of_row = |(row, best): (&Row, &Vec<Option<Best>>)| {
        let units = (row.inputs * row.units) as f64;
        let sum = |parts: &Best| parts.iter().sum::<Duration>().as_secs_f64() * 1e9 / units;
        best.iter().map(|best| best.as_ref().map(sum)).collect()
    };
    rows.iter().zip(&best).map(of_row).collect()
}

fn time(work: &mut Work, inputs: usize, best: &mut Best) {
    for (part, best) in best.iter_mut().enumerate() {
        let place = |part| part * inputs / PARTS;
        let began = Instant::now();
        black_box(work(place(part)..place(part + 1)));
        *best = began.elapsed().min(*best);
    }
}

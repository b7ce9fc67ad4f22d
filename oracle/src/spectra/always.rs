//! Every gap, always (document 02, item 11): what an accepted call of ours leaves keeps every gap; it is
//! what was there, with 0 moves, exactly where that kept them; and stabilised once more it stays, with 0
//! moves. Held to a plain test of gaps; the crate and libopus are not asked.

use super::vectors::{gaps, indices, parts, vector, vector_at_the_top};
use super::{text, Vector};
use crate::board::{Board, Score, PROMISE};
use crate::compare::Answer;
use crate::domain::{gaps_kept, order};
use crate::hold::{Extent, Outcome};
use crate::rng::Rng;
use crate::ways::ways;
use crate::{ours, report};
use std::iter::once;

/// So many vectors at random for each case of a call: a million in the gate.
const FOLD: u64 = 5;

pub fn hold(extent: &Extent, board: &mut Board) {
    let mut rng = Rng::new(extent.seed);
    let (mut score, mut seen) = (Score::default(), [0; WAYS.len()]);
    every_small(&mut score, &mut seen);
    at_random(&mut rng, FOLD * extent.cases, &mut score, &mut seen);
    settle("gaps, stabilised", &score, &seen, board);
    decoded(&mut rng, extent.cases, board);
}

ways! { Way, WAYS:
    Kept "vectors that keep every gap",
    Few "1 to 19 moves",
    All "20 moves",
    Small "2 values of the grid",
    Refused "gap sets of the grid that are refused",
    Full "gap sets of 32,768 in all",
    Single "gap sets of one gap of 32,767",
    Ones "gap sets of ones",
}

type Seen = [u64; WAYS.len()];

fn settle(what: &'static str, score: &Score, seen: &Seen, board: &mut Board) {
    let ways = WAYS.iter().zip(seen);
    let counts = ways.clone().map(|(way, &n)| (way.to_string(), n));
    board.note(format!("{what}: {}", report::counts(counts)));
    let missing = ways
        .filter(|(_, &n)| n == 0)
        .map(|(way, _)| way.to_string());
    board.covered(what, missing);
    board.row(what, PROMISE, score);
}

// ---- the promise

/// 0 stands before the values and 32,768 behind them.
fn steps(values: &[i16]) -> impl Iterator<Item = i32> + '_ {
    let wide = values.iter().map(|&value| i32::from(value));
    let behind = wide.clone().chain(once(32768));
    once(0)
        .chain(wide)
        .zip(behind)
        .map(|(low, high)| high - low)
}

fn keeps(values: &[i16], gaps: &[i16]) -> bool {
    steps(values)
        .zip(gaps)
        .all(|(step, &gap)| step >= i32::from(gap))
}

/// What a call made of these values.
fn check(before: &[i16], gaps: &[i16], answer: Answer<Vector>, seen: &mut Seen) -> Outcome {
    let (after, good) = (answer.state, keeps(before, gaps));
    let again = ours::nlsf_stabilise(after, gaps);
    let rules = [
        ("REFUSED", answer.refusal == 0),
        ("A GAP IS LOST", keeps(after.values(), gaps)),
        ("COUNTED", (answer.value == 0) == good),
        ("MOVED", !good || after.values() == before),
        (
            "MOVED AGAIN",
            (again.refusal, again.value, again.state) == (0, 0, after),
        ),
    ];
    if let Some((fault, _)) = rules.iter().find(|(_, holds)| !holds) {
        return Err(format!("{fault}: {before:?} by gaps {gaps:?}: {answer:?}"));
    }
    let way = match answer.value {
        0 => Way::Kept,
        1..=19 => Way::Few,
        _ => Way::All,
    };
    seen[way as usize] += 1;
    Ok(())
}

// ---- the cases

const GRID_GAPS: [i16; 9] = [0, 1, 2, 3, 300, 16383, 16384, 32766, 32767];
const GRID_VALUES: [i16; 16] = [
    -32768, -32767, -300, -1, 0, 1, 2, 3, 300, 16383, 16384, 16385, 32764, 32765, 32766, 32767,
];

/// Every pair of values beside every set of gaps of the grid.
fn every_small(score: &mut Score, seen: &mut Seen) {
    let pairs = GRID_GAPS.iter().flat_map(|&a| GRID_GAPS.map(|b| [a, b]));
    for set in pairs.flat_map(|[a, b]| GRID_GAPS.map(|c| [a, b, c])) {
        let values = GRID_VALUES
            .iter()
            .flat_map(|&a| GRID_VALUES.map(|b| [a, b]));
        for before in values {
            let answer = ours::nlsf_stabilise(Vector::of(&before), &set);
            if gaps_kept(&set) {
                seen[Way::Small as usize] += 1;
                score.outcome(check(&before, &set, answer, seen));
            } else {
                seen[Way::Refused as usize] += 1;
                let same =
                    (answer.refusal, answer.value) == (7, 0) && answer.state.values() == before;
                score.count(7, same, || {
                    format!("TAKEN: {before:?} by gaps {set:?}: {answer:?}")
                });
            }
        }
    }
}

fn at_random(rng: &mut Rng, vectors: u64, score: &mut Score, seen: &mut Seen) {
    let mut set = Vec::new();
    for number in 0..vectors {
        if number % 8 == 0 {
            set = extreme(rng);
        }
        let before = match rng.one_in(8) {
            true => vector_at_the_top(rng, set.len() - 1),
            false => vector(rng, &set),
        };
        let total = set.iter().map(|&gap| u32::from(gap as u16)).sum::<u32>();
        seen[Way::Full as usize] += u64::from(total == 32768);
        seen[Way::Single as usize] += u64::from(set.contains(&32767));
        seen[Way::Ones as usize] += u64::from(set.iter().all(|&gap| gap == 1));
        let answer = ours::nlsf_stabilise(before, &set);
        score.outcome(check(before.values(), &set, answer, seen));
    }
}

/// A gap set at an end of the rule in half of the cases.
fn extreme(rng: &mut Rng) -> Vec<i16> {
    let n = rng.or_end(2, 16) as usize;
    match rng.between(0, 5) {
        0 => parts(rng, n, 32768),
        1 => {
            let mut set = vec![0; n + 1];
            set[n] = 1;
            set[rng.between(0, n as u32) as usize] = 32767;
            set
        }
        2 => vec![1; n + 1],
        _ => gaps(rng, n),
    }
}

// ---- decoding

/// Of each book how near the values come: to 0, to one another, to the end.
fn decoded(rng: &mut Rng, spectra: u64, board: &mut Board) {
    const NAME: &str = "gaps, decoded";
    let (mut score, mut seen) = (Score::default(), [0; WAYS.len()]);
    let mut least = [[i32::MAX; 3]; 2];
    for number in 0..spectra {
        let khz = [8, 12, 16][number as usize % 3];
        let first = rng.between(0, 31) as i8;
        let (indices, gaps) = (indices(rng, first, khz), text::book(khz).deltaMin_Q15);
        let before = text::places(indices, khz, &mut |_, _| {});
        let answer = ours::nlsf_decode(Vector::new(order(khz)), indices, khz);
        let near = &mut least[usize::from(khz == 16)];
        *near = nearer(*near, answer.state.values());
        score.outcome(check(&before, gaps, answer, &mut seen));
    }
    board.note(format!(
        "{NAME}: the least distances met, of the first value, of neighbours, of the last: {:?} at 8 and 12 \
         kHz, {:?} at 16",
        least[0], least[1]
    ));
    let asked = [8, 16].map(|khz| nearest(text::book(khz).deltaMin_Q15));
    let far = (asked != least).then(|| format!("distances {asked:?}"));
    board.covered(NAME, far.into_iter());
    board.row(NAME, PROMISE, &score);
}

fn nearer(so_far: [i32; 3], values: &[i16]) -> [i32; 3] {
    let here = ends_and_least(&steps(values).collect::<Vec<_>>());
    std::array::from_fn(|i| so_far[i].min(here[i]))
}

fn nearest(gaps: &[i16]) -> [i32; 3] {
    ends_and_least(&gaps.iter().map(|&gap| gap.into()).collect::<Vec<_>>())
}

/// The first, the least of those between, the last.
fn ends_and_least(distances: &[i32]) -> [i32; 3] {
    let (n, between) = (distances.len(), distances[1..distances.len() - 1].iter());
    [
        distances[0],
        between.copied().min().unwrap_or(0),
        distances[n - 1],
    ]
}

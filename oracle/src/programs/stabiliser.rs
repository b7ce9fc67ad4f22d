//! The stabiliser program.

use super::sections::Rest;
use super::{accepted, counted, line, List, Program};
use crate::compare::Sides;
use crate::domain::spectra_refusal;
use crate::hold::Outcome;
use crate::record::calls;
use crate::report;
use crate::rng::Rng;
use crate::spectra::{gaps, leaves, vector, Ask, Spectra, Vector};
use std::iter::once;
use std::ops::RangeInclusive;

/// The orders that document 01 allows.
const ORDERS: RangeInclusive<usize> = 2..=16;

/// The most moves before the fallback.
const MOST_MOVES: u32 = 20;

/// Of each order how many vectors kept their gaps and how many were moved; how many took the most moves;
/// and of how many a store of the crate left 16 bits.
#[derive(Default)]
pub struct Stabiliser {
    kept: [u64; 17],
    moved: [u64; 17],
    most_moves: u64,
    left: u64,
}

impl Program for Stabiliser {
    const NAME: &'static str = "nlsf_stabiliser";
    const CALL: u8 = calls::NLSF_STABILISER;
    const REFUSALS: &'static [u32] = &[6, 7, 9];

    fn inputs(list: &mut List<Self>, rng: &mut Rng) -> Outcome {
        sections(list)?;
        longest(list)?;
        lengths(list)?;
        gap_rule(list)?;
        at_the_top(list)?;
        stabilised(list, rng)
    }

    fn answer(&mut self, input: &[u8]) -> Result<String, u32> {
        let (values, gaps) = both(input).ok_or(9_u32)?;
        let ask = Ask::Stabilise(&gaps);
        accepted(spectra_refusal(values.len(), ask))?;
        let before = Vector::of(&values);
        let answer = Spectra::unopus(&mut [], before, ask);
        let moves = answer.value;
        let counts = if moves == 0 {
            &mut self.kept
        } else {
            &mut self.moved
        };
        counts[values.len()] += 1;
        self.most_moves += u64::from(moves == MOST_MOVES);
        self.left += u64::from(leaves(&before, ask));
        Ok(line("rounds", &[moves as u8]) + &counted("vector", answer.state.values()))
    }

    fn complete(&self) -> Outcome {
        let missing = |counts: [u64; 17], what: &'static str| {
            let orders = ORDERS.filter(move |&n| counts[n] == 0);
            orders.map(move |n| format!("{n} values {what}"))
        };
        let most = (self.most_moves == 0).then(|| format!("{MOST_MOVES} moves"));
        let left = (self.left == 0).then(|| "a store of the crate that leaves 16 bits".to_string());
        let orders = missing(self.kept, "kept").chain(missing(self.moved, "moved"));
        report::complete(orders.chain(most).chain(left))
    }
}

// ---- document 01: "a vector and a gap section, each after a one-byte count, values two bytes high first"

fn both(input: &[u8]) -> Option<(Vec<i16>, Vec<i16>)> {
    let mut rest = Rest(input);
    let sections = (section(&mut rest)?, section(&mut rest)?);
    rest.ended(sections)
}

fn section(rest: &mut Rest) -> Option<Vec<i16>> {
    let count = rest.byte()?;
    let value = |_| rest.pair().map(i16::from_be_bytes);
    (0..count).map(value).collect()
}

fn input(values: &[i16], gaps: &[i16]) -> Vec<u8> {
    let section = |values: &[i16]| -> Vec<u8> {
        let bytes = values.iter().flat_map(|value| value.to_be_bytes());
        once(values.len() as u8).chain(bytes).collect()
    };
    [section(values), section(gaps)].concat()
}

// ---- the list

/// Document 01's example, cut at each byte and going on; counts that are not their section's; 9 comes before
/// 6 and 7.
fn sections(list: &mut List<Stabiliser>) -> Outcome {
    let example = input(&[100, 50], &[10, 5, 20]);
    list.accepted(&example)?;
    for length in 0..example.len() {
        list.refused(9, "an input cut short", &example[..length])?;
    }
    for more in [&[0][..], &[0x14], &[0xFF], &[0; 2], &[0; 1000]] {
        list.refused(9, "an input that goes on", &[&example, more].concat())?;
    }
    for (place, count) in [(0, 0), (0, 1), (0, 3), (0, 255), (5, 2), (5, 4)] {
        let mut other = example.clone();
        other[place] = count;
        list.refused(9, "a count that is not its section's", &other)?;
    }
    for gaps in [&[-1, 0, 0][..], &[0]] {
        let mut other = input(&[1, 2], gaps);
        other.push(0);
        list.refused(9, "an input that goes on, 6 or 7 besides", &other)?;
        other.truncate(other.len() - 2);
        list.refused(9, "an input cut short, 6 or 7 besides", &other)?;
    }
    Ok(())
}

/// The longest input that can be whole, and one byte to either side.
fn longest(list: &mut List<Stabiliser>) -> Outcome {
    let mut longest = input(&[1; 255], &[1; 255]);
    list.refused(6, "the longest input", &longest)?;
    longest.push(1);
    list.refused(9, "an input that goes on", &longest)?;
    longest.truncate(longest.len() - 2);
    list.refused(9, "an input cut short", &longest)
}

/// Lengths of both at their limits and to either side, the gaps' rule kept, or broken: 6 comes before 7.
fn lengths(list: &mut List<Stabiliser>) -> Outcome {
    for n in [0, 1, 2, 16, 17, 255] {
        for m in [0, n - 1, n, n + 1, n + 2, 255] {
            let m = m.clamp(0, 255);
            let mut gaps = vec![9; m as usize];
            let values = vec![100; n as usize];
            let allowed = (2..=16).contains(&n) && m == n + 1;
            match allowed {
                true => list.accepted(&input(&values, &gaps))?,
                false => list.refused(6, "a length", &input(&values, &gaps))?,
            }
            if let Some(last) = gaps.last_mut() {
                *last = 0;
                let (number, cause) = match allowed {
                    true => (7, "a last gap of 0"),
                    false => (6, "a length, 7 besides"),
                };
                list.refused(number, cause, &input(&values, &gaps))?;
            }
        }
    }
    Ok(())
}

/// Gap sets that just keep their rule, and that break it by one or by much.
fn gap_rule(list: &mut List<Stabiliser>) -> Outcome {
    for n in [2, 16] {
        let values: Vec<i16> = (1..=n).map(|i| 1900 * i).collect();
        let n = n as usize;
        for (place, gap) in (0..=n).flat_map(|place| [(place, -1), (place, i16::MIN)]) {
            let mut gaps = vec![3; n + 1];
            gaps[place] = gap;
            list.refused(7, "a gap below 0", &input(&values, &gaps))?;
        }
        for last in [1, i16::MAX] {
            let mut gaps = vec![0; n + 1];
            gaps[n] = last;
            list.accepted(&input(&values, &gaps))?;
            gaps[0] = i16::MAX - last + 1;
            list.accepted(&input(&values, &gaps))?;
            gaps[n - 1] += 1;
            list.refused(7, "a total of 32,769", &input(&values, &gaps))?;
        }
        list.refused(7, "a large total", &input(&values, &vec![i16::MAX; n + 1]))?;
    }
    Ok(())
}

/// Pairs at the top of the band, P12 of documents 01 and 02 among them, and one just below it.
fn at_the_top(list: &mut List<Stabiliser>) -> Outcome {
    for (last, odd) in [(32767, 1), (32767, 3), (32766, 1)] {
        list.accepted(&input(&[last; 2], &[0, odd, 1]))?;
    }
    Ok(())
}

/// Of every order some vectors and gaps of any kind, a vector that just keeps its gaps, and one that breaks
/// each.
fn stabilised(list: &mut List<Stabiliser>, rng: &mut Rng) -> Outcome {
    for n in ORDERS {
        for _ in 0..4 {
            let gaps = gaps(rng, n);
            list.accepted(&input(vector(rng, &gaps).values(), &gaps))?;
        }
        let gaps: Vec<i16> = (0..=n).map(|_| rng.between(1, 1900) as i16).collect();
        let mut values = gaps[..n].to_vec();
        for place in 1..n {
            values[place] += values[place - 1];
        }
        list.accepted(&input(&values, &gaps))?;
        values.reverse();
        list.accepted(&input(&values, &gaps))?;
    }
    Ok(())
}

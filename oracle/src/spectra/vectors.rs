//! Vectors, gap sets and indices, chosen so that every way of the calls is taken often.

use super::{text, Vector};
use crate::rng::Rng;

/// A number of 16 bits, an end of a range in half of the cases.
fn any(rng: &mut Rng) -> i16 {
    match rng.between(0, 1) {
        0 => rng.pick(&[i16::MIN, i16::MIN + 1, -1, 0, 1, i16::MAX - 1, i16::MAX]),
        _ => rng.word() as i16,
    }
}

/// A gap set that keeps document 01's rule, for n values.
pub fn gaps(rng: &mut Rng, n: usize) -> Vec<i16> {
    let books = [8, 16].map(|khz| text::book(khz).deltaMin_Q15);
    match (
        rng.between(0, 7),
        books.iter().find(|book| book.len() == n + 1),
    ) {
        (0 | 1, Some(book)) => book.to_vec(),
        (2, _) => gaps_to_the_top(rng, n),
        (3, _) => {
            let total = rng.between(1, 40);
            parts(rng, n, total)
        }
        (4, _) => {
            let total = rng.between(1, 32768);
            parts(rng, n, total)
        }
        _ => {
            let total = rng.between(32700, 32768);
            parts(rng, n, total)
        }
    }
}

/// The total cut at random places into n + 1 gaps.
pub fn parts(rng: &mut Rng, n: usize, total: u32) -> Vec<i16> {
    let mut cuts = vec![0];
    cuts.extend((0..n).map(|_| rng.or_end(0, total - 1)));
    cuts.push(total);
    cuts.sort_unstable();
    // A gap has 16 bits, and a total of 32,768 needs 17.
    let gaps = cuts.windows(2).map(|pair| (pair[1] - pair[0]).min(32767));
    gaps.map(|gap| gap as i16).collect()
}

/// Any gaps, then an odd one, and none behind it but a last gap of 1: there a store of the crate can leave
/// 16 bits.
pub fn gaps_to_the_top(rng: &mut Rng, n: usize) -> Vec<i16> {
    let mut gaps = vec![0; n + 1];
    gaps[n] = 1;
    let place = rng.between(1, n as u32 - 1) as usize;
    let any = 2 * rng.between(0, 16383) as i16 + 1;
    gaps[place] = rng.pick(&[1, 3, 301, any, 32767]);
    let room = 32767 - gaps[place] as u32;
    if room > 0 && rng.one_in(2) {
        let total = rng.or_end(1, room);
        gaps[..place].copy_from_slice(&parts(rng, place - 1, total));
    }
    gaps
}

/// A vector for the gaps, of any kind.
pub fn vector(rng: &mut Rng, gaps: &[i16]) -> Vector {
    let mut vector = Vector::new(gaps.len() - 1);
    let values = vector.values_mut();
    match rng.between(0, 7) {
        0 => values.fill_with(|| any(rng)),
        1 => values.fill_with(|| rng.word() as i16),
        2 => values.fill(any(rng)),
        3 => {
            let (base, width) = (any(rng), rng.between(0, 60));
            values.fill_with(|| base.saturating_add(rng.between(0, width) as i16));
        }
        4 => spread(rng, values, gaps, 0),
        kind => spread(rng, values, gaps, [3, 200, 32767][kind as usize - 5]),
    }
    match rng.between(0, 5) {
        0 => values.sort_unstable(),
        1 => values.sort_unstable_by(|a, b| b.cmp(a)),
        2 => {
            let place = rng.between(1, values.len() as u32 - 1) as usize;
            values.swap(place - 1, place);
        }
        _ => {}
    }
    vector
}

/// Values near the top, and a few of any kind.
pub fn vector_at_the_top(rng: &mut Rng, n: usize) -> Vector {
    let mut vector = Vector::new(n);
    let width = rng.pick(&[1, 3, 40, 32767]);
    vector.values_mut().fill_with(|| match rng.one_in(8) {
        true => any(rng),
        false => 32767 - rng.or_end(0, width) as i16,
    });
    vector
}

/// A vector that keeps every gap, each value then moved by less than the width.
fn spread(rng: &mut Rng, values: &mut [i16], gaps: &[i16], width: u32) {
    let total: u32 = gaps.iter().map(|&gap| gap as u32).sum();
    let free = 32768 - total;
    let mut slack: Vec<u32> = values.iter().map(|_| rng.or_end(0, free)).collect();
    slack.sort_unstable();
    let mut sum = 0;
    for ((value, &gap), slack) in values.iter_mut().zip(gaps).zip(slack) {
        sum += i32::from(gap);
        let off = rng.between(0, width) as i32 - (width / 2) as i32;
        *value = (sum + slack as i32 + off).clamp(-32768, 32767) as i16;
    }
}

/// Residual indices in -10 to 10 behind the first index; those past an order of 10 can be anything.
pub fn indices(rng: &mut Rng, first: i8, khz: u32) -> [i8; 17] {
    let kind = rng.between(0, 4);
    let one = rng.between(0, 20) as i8 - 10;
    let mut indices = [0; 17];
    indices.fill_with(|| match kind {
        0 => one,
        1 => rng.pick(&[-10, 10]),
        2 => rng.between(0, 4) as i8 - 2,
        3 => rng.or_end(0, 20) as i8 - 10,
        _ => rng.between(0, 20) as i8 - 10,
    });
    indices[0] = first;
    if khz != 16 {
        indices[11..].fill_with(|| rng.word() as i8);
    }
    indices
}

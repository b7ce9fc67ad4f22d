//! Which calls are compared. A plan puts its calls to a sink, which compares or records them.

use super::vectors::{gaps, gaps_to_the_top, indices, parts, vector, vector_at_the_top};
use super::{Ask, Spectra, Vector, ROOM};
use crate::compare::Sink;
use crate::domain::order;
use crate::hold::{Outcome, Plan, Plans};
use crate::rng::Rng;

const RATES: [u32; 3] = [8, 12, 16];

impl Plans for Spectra {
    const PLANS: &'static [Plan<Spectra>] = &[
        (
            "of the stabiliser on vectors and gap sets of all kinds",
            |sink, rng, extent| stabilised(sink, rng, extent.cases - extent.cases / 8),
        ),
        (
            "of the stabiliser at the top of the band",
            |sink, rng, extent| at_the_top(sink, rng, extent.cases / 8),
        ),
        (
            "of the stabiliser at the limits of lengths and gap sets",
            |sink, rng, extent| {
                extent.rounds(32).try_for_each(|_| {
                    lengths(sink, rng, 0..=ROOM)?;
                    gap_rule(sink, rng, 2..=16)
                })
            },
        ),
        (
            "decoding every first index at every rate",
            |sink, rng, extent| decoded(sink, rng, extent.cases.div_ceil(96)),
        ),
        (
            "decoding at the limits of rates, indices and lengths",
            |sink, rng, extent| {
                extent
                    .rounds(32)
                    .try_for_each(|_| numbers(sink, rng, &RATES))
            },
        ),
    ];
}

fn stabilise(sink: &mut dyn Sink<Spectra>, vector: Vector, gaps: &[i16]) -> Outcome {
    sink.put(&mut [], vector, Ask::Stabilise(gaps)).map(|_| ())
}

fn decode(sink: &mut dyn Sink<Spectra>, n: usize, indices: [i8; 17], khz: u32) -> Outcome {
    // What the vector held does not matter, and is not 0 where a refusal should leave it.
    let vector = Vector::of(&[-7; ROOM][..n]);
    sink.put(&mut [], vector, Ask::Decode(indices, khz))
        .map(|_| ())
}

/// Accepted calls of the stabiliser.
pub fn stabilised(sink: &mut dyn Sink<Spectra>, rng: &mut Rng, calls: u64) -> Outcome {
    let mut set = Vec::new();
    for call in 0..calls {
        if call % 8 == 0 {
            let n = rng.or_end(2, 16);
            let n = rng.pick(&[n as usize, 3, 10]);
            set = gaps(rng, n);
        }
        stabilise(sink, vector(rng, &set), &set)?;
    }
    Ok(())
}

/// Accepted calls of the stabiliser in which, most often, a store of the crate leaves 16 bits.
pub fn at_the_top(sink: &mut dyn Sink<Spectra>, rng: &mut Rng, calls: u64) -> Outcome {
    for _ in 0..calls {
        let n = rng.or_end(2, 16) as usize;
        let set = gaps_to_the_top(rng, n);
        stabilise(sink, vector_at_the_top(rng, n), &set)?;
    }
    Ok(())
}

/// These lengths of the vector beside every length of the gaps, whose rule is kept, or broken: 6 comes
/// before 7.
pub fn lengths(
    sink: &mut dyn Sink<Spectra>,
    rng: &mut Rng,
    lengths: impl IntoIterator<Item = usize>,
) -> Outcome {
    let lengths = lengths.into_iter();
    for (n, m) in lengths.flat_map(|n| (0..=ROOM + 1).map(move |m| (n, m))) {
        let mut set = vec![rng.between(0, 1800) as i16; m];
        let full = Vector::of(&[rng.word() as i16; ROOM][..n]);
        if let Some(last) = set.last_mut() {
            *last = 1;
        }
        stabilise(sink, full, &set)?;
        if let Some(last) = set.last_mut() {
            *last = 0;
        }
        stabilise(sink, full, &set)?;
    }
    Ok(())
}

/// Gap sets that just keep their rule, and that break it by one or by much, at every place.
pub fn gap_rule(
    sink: &mut dyn Sink<Spectra>,
    rng: &mut Rng,
    lengths: impl IntoIterator<Item = usize>,
) -> Outcome {
    for n in lengths {
        let small = parts(rng, n, 600);
        for place in 0..=n {
            for gap in [-1, i16::MIN, 0, 1] {
                let mut set = small.clone();
                set[place] = gap;
                stabilise(sink, vector(rng, &small), &set)?;
            }
            for total in [32767, 32768, 32769, 65534] {
                let mut set = vec![0; n + 1];
                set[n] = 1;
                let rest = total - 1;
                set[(place + 1) % n] = (rest / 2) as i16;
                set[place % n] = (rest - rest / 2) as i16;
                stabilise(sink, vector(rng, &small), &set)?;
            }
        }
        stabilise(sink, vector(rng, &small), &vec![i16::MAX; n + 1])?;
    }
    Ok(())
}

/// So many sets of indices for each first index at each rate.
pub fn decoded(sink: &mut dyn Sink<Spectra>, rng: &mut Rng, sets: u64) -> Outcome {
    for (khz, first) in RATES
        .iter()
        .flat_map(|&khz| (0..32).map(move |first| (khz, first)))
    {
        for _ in 0..sets {
            decode(sink, order(khz), indices(rng, first, khz), khz)?;
        }
    }
    Ok(())
}

/// Rates, indices and lengths at their limits and past them, one at a time, and with a length that is
/// wrong too: 4 comes before 6.
pub fn numbers(sink: &mut dyn Sink<Spectra>, rng: &mut Rng, rates: &[u32]) -> Outcome {
    for khz in [0, 7, 9, 10, 11, 13, 15, 17, 24, 48, 264, u32::MAX] {
        for n in [10, 16, 1] {
            decode(sink, n, indices(rng, 3, 16), khz)?;
        }
    }
    for &khz in rates {
        for n in 0..=ROOM {
            decode(sink, n, indices(rng, 31, khz), khz)?;
        }
        for (place, index) in (0..17).flat_map(|i| BESIDE.map(|index| (i, index))) {
            let mut set = indices(rng, 0, khz);
            set[place] = index;
            decode(sink, order(khz), set, khz)?;
            decode(sink, order(khz) - 1, set, khz)?;
        }
    }
    Ok(())
}

/// The limits of indices, and one past them or much.
const BESIDE: [i8; 10] = [i8::MIN, -11, -10, -1, 0, 10, 11, 31, 32, i8::MAX];

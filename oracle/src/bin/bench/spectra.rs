//! Line spectra.

use crate::row::{on_each, Row, Work};
use crate::side::{sides, Side};
use crate::unopus::book;
use oracle::domain::order;
use oracle::rng::Rng;

pub const GROUP: &str = "Line spectra";
pub const VECTORS: usize = 8192;

type Indices = [i8; 17];

pub fn rows(rng: &mut Rng) -> Vec<Row> {
    let row = |name: &str, khz, works| Row {
        group: GROUP,
        name: format!("{name} of order {}", order(khz)),
        inputs: VECTORS,
        units: 1,
        works,
    };
    let mut rows = Vec::new();
    for khz in [8, 16] {
        let indices: Vec<Indices> = (0..VECTORS).map(|_| any_indices(rng)).collect();
        rows.push(row("decoding", khz, sides!(decoding(&indices, khz))));
    }
    for (name, shift) in [("keeping its gaps", 2), ("breaking some", 0)] {
        for khz in [8, 16] {
            let vectors: Vec<Vec<i16>> = (0..VECTORS)
                .map(|_| vector(rng, order(khz), shift))
                .collect();
            let name = format!("stabilising one {name},");
            rows.push(row(&name, khz, sides!(stabilising(&vectors, khz))));
        }
    }
    rows
}

/// Most residuals small, as speech has them.
fn any_indices(rng: &mut Rng) -> Indices {
    let mut indices = [0; 17].map(|_: i8| crate::speech::residual(rng));
    indices[0] = rng.between(0, 31) as i8;
    indices
}

/// Values spread over the band, each moved up by at most a step, halved so many times, and half of it.
fn vector(rng: &mut Rng, order: usize, halvings: u32) -> Vec<i16> {
    let step = 32768 / (order as u32 + 1);
    let most = (step + step / 2) >> halvings;
    let value = |k| (k * step + rng.between(300, 300 + most)) as i16;
    (0..order as u32).map(value).collect()
}

fn decoding<S: Side>(indices: &[Indices], khz: u32) -> Work {
    let mut vector = vec![0; order(khz)];
    on_each(indices, move |indices| {
        S::decode_spectrum(&mut vector, indices, khz);
        ends(&vector)
    })
}

/// A vector that is stabilised already would need no moves: each call has a fresh copy.
fn stabilising<S: Side>(vectors: &[Vec<i16>], khz: u32) -> Work {
    let gaps = book(khz).deltaMin_Q15;
    let mut vector = vec![0; order(khz)];
    on_each(vectors, move |values| {
        vector.copy_from_slice(values);
        S::stabilise(&mut vector, gaps);
        ends(&vector)
    })
}

fn ends(vector: &[i16]) -> u32 {
    vector[0] as u32 ^ (vector[vector.len() - 1] as u32) << 16
}

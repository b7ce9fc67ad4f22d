//! The list that crates/reader_cases replays.

use super::{Ask, Reading};
use crate::coder::{along, in_short, speech};
use crate::compare::Sink;
use crate::hold::Outcome;
use crate::models::FEW;
use crate::record::Recorded;
use crate::rng::Rng;
use crate::state::{Reader, Words};

impl Recorded for Reading {
    fn list(sink: &mut dyn Sink<Reading>, rng: &mut Rng) -> Outcome {
        along(sink, rng, [0, 1, 2, 3, 5, 8, 13, 21, 34, 55], 80)?;
        speech(sink, rng, 1)?;
        in_short(sink, rng, &FEW, &FEW)
    }

    fn words(reader: &Reader) -> Words {
        reader.words()
    }

    fn asked(ask: Ask) -> (Vec<u32>, Vec<u8>) {
        match ask {
            Ask::Open | Ask::Account => (vec![0], vec![]),
            Ask::Read(model) => (vec![model.number()], model.entries().to_vec()),
        }
    }
}

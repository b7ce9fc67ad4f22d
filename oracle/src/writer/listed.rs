//! The list that crates/writer_cases replays.

use super::{plans, Ask, Writing};
use crate::coder::{along, in_short, speech};
use crate::compare::Sink;
use crate::hold::Outcome;
use crate::models::Model;
use crate::record::Recorded;
use crate::rng::Rng;
use crate::state::{Words, Writer};

impl Recorded for Writing {
    fn list(sink: &mut dyn Sink<Writing>, rng: &mut Rng) -> Outcome {
        plans::listed(sink)?;
        along(sink, rng, [0, 1, 2, 3, 5, 8, 13, 21, 34], 80)?;
        speech(sink, rng, 1)?;
        plans::runs(sink, &[3])?;
        plans::finishes(sink, rng, 300)?;
        in_short(sink, rng, &[Model::Bits(25)], &[Model::Bits(26)])
    }

    fn words(writer: &Writer) -> Words {
        writer.words()
    }

    fn asked(ask: Ask) -> (Vec<u32>, Vec<u8>) {
        match ask {
            Ask::Open | Ask::Account | Ask::Done { .. } => (vec![0, 0], vec![]),
            Ask::Write(model, value) => (vec![model.number(), value], model.entries().to_vec()),
        }
    }
}

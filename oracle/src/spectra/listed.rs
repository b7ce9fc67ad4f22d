//! The list that crates/spectra_cases replays.

use super::{plans, Ask, Spectra, Vector};
use crate::compare::Sink;
use crate::hold::Outcome;
use crate::record::Recorded;
use crate::rng::Rng;
use crate::state::{Words, FIELDS};

impl Recorded for Spectra {
    fn list(sink: &mut dyn Sink<Spectra>, rng: &mut Rng) -> Outcome {
        plans::stabilised(sink, rng, 320)?;
        plans::at_the_top(sink, rng, 40)?;
        plans::lengths(sink, rng, [1, 2, 16, 17])?;
        plans::gap_rule(sink, rng, [2, 5])?;
        plans::decoded(sink, rng, 2)?;
        plans::numbers(sink, rng, &[8, 16])
    }

    /// The count of the values, then two values a word.
    fn words(vector: &Vector) -> Words {
        let mut words = [0; FIELDS];
        words[0] = vector.n as u32;
        for (i, &value) in vector.room.iter().enumerate() {
            words[1 + i / 2] |= u32::from(value as u16) << (16 * (i % 2));
        }
        words
    }

    fn asked(ask: Ask) -> (Vec<u32>, Vec<u8>) {
        match ask {
            Ask::Decode(indices, khz) => (vec![khz], indices.map(|index| index as u8).to_vec()),
            Ask::Stabilise(gaps) => {
                let bytes = gaps.iter().flat_map(|gap| gap.to_le_bytes());
                (vec![0], bytes.collect())
            }
        }
    }
}

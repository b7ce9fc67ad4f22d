//! The calls on line spectra: ours, the crate's and libopus's. Theirs answer no number of moves: the count
//! is that of the crate's arithmetic, watched, whose vector is theirs. Where a store leaves 16 bits, they
//! are made to answer in whole numbers; elsewhere whole numbers end as they do.

use super::{courses, text, Ask, Spectra, Vector};
use crate::compare::{Answer, Sides};
use crate::domain::{self, order};
use crate::ours;
use crate::silk::NLSF_decode::silk_NLSF_decode;
use crate::silk::NLSF_stabilize::silk_NLSF_stabilize;

impl Sides for Spectra {
    fn ours(_: &mut [u8], vector: Vector, ask: Ask) -> Answer<Vector> {
        match ask {
            Ask::Decode(indices, khz) => ours::nlsf_decode(vector, indices, khz),
            Ask::Stabilise(gaps) => ours::nlsf_stabilise(vector, gaps),
        }
    }

    fn unopus(_: &mut [u8], vector: Vector, ask: Ask) -> Answer<Vector> {
        guarded(vector, ask, |values| match ask {
            Ask::Decode(indices, khz) => {
                silk_NLSF_decode(values, &indices[..=order(khz)], text::book(khz))
            }
            Ask::Stabilise(gaps) => silk_NLSF_stabilize(values, gaps),
        })
    }

    #[cfg(libopus)]
    fn libopus(_: &mut [u8], vector: Vector, ask: Ask) -> Answer<Vector> {
        guarded(vector, ask, |values| match ask {
            Ask::Decode(indices, khz) => super::libopus::decode(values, &indices, khz),
            Ask::Stabilise(gaps) => super::libopus::stabilise(values, gaps),
        })
    }

    fn refusal(_: &[u8], vector: &Vector, ask: Ask) -> u32 {
        domain::spectra_refusal(vector.values().len(), ask)
    }
}

fn guarded(vector: Vector, ask: Ask, call: impl FnOnce(&mut [i16])) -> Answer<Vector> {
    domain::guarded(Spectra::refusal(&[], &vector, ask), vector, || {
        let mut after = vector;
        call(after.values_mut());
        let (watched, whole) = courses(&vector, ask, &mut |_, _| {});
        assert_eq!(
            watched.course.vector,
            after.values(),
            "the watched vector is another"
        );
        if !watched.left {
            assert_eq!(watched.course, whole, "whole numbers end otherwise");
            return (watched.course.moves, after);
        }
        let stabilised = matches!(ask, Ask::Stabilise(_));
        assert!(stabilised, "a store leaves 16 bits in decoding");
        after.values_mut().copy_from_slice(&whole.vector);
        (whole.moves, after)
    })
}

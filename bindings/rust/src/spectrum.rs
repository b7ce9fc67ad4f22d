use crate::raw::{self, Moves, Spectrum};
use crate::{answer, Refusal};

/// The line spectrum of a frame's spectrum indices, stabilised: 10 values at 8 and 12 kHz, 16 at 16
/// kHz, which rise and never touch. Answers the number of moves, 0 to 20.
pub fn nlsf_decode(vector: &mut [i16], index: [i8; 17], khz: u32) -> Result<u32, Refusal> {
    // SAFETY: a slice's pointer is not null and names as many numbers as its length.
    let a =
        unsafe { raw::tg_nlsf_decode(vector.as_mut_ptr(), vector.len(), Spectrum { index }, khz) };
    moves(a)
}

/// A vector of 2 to 16 values made to keep its least gaps, one more than the values. Answers the number
/// of moves, 0 to 20: 0 exactly for a vector that kept every gap, which is left as it is.
pub fn nlsf_stabilise(vector: &mut [i16], gaps: &[i16]) -> Result<u32, Refusal> {
    // SAFETY: as above, for both slices; the one that is written is borrowed alone.
    let a = unsafe {
        raw::tg_nlsf_stabilise(vector.as_mut_ptr(), vector.len(), gaps.as_ptr(), gaps.len())
    };
    moves(a)
}

fn moves(a: Moves) -> Result<u32, Refusal> {
    answer(a.refusal, a.moves)
}

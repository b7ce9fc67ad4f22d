//! libopus's calls: the static library's internal functions of silk/main.h and silk/SigProc_FIX.h.

use crate::libopus::{silk_NLSF_CB_NB_MB, silk_NLSF_CB_WB, Book};
use std::ffi::c_void;
use std::ptr::from_ref;

extern "C" {
    fn silk_NLSF_decode(nlsf_q15: *mut i16, indices: *const i8, book: *const c_void);
    fn silk_NLSF_stabilize(nlsf_q15: *mut i16, gaps_q15: *const i16, n: i32);
}

/// A decoding that document 01 accepts.
pub fn decode(vector: &mut [i16], indices: &[i8; 17], khz: u32) {
    let book = match khz {
        16 => address(silk_NLSF_CB_WB()),
        _ => address(silk_NLSF_CB_NB_MB()),
    };
    // SAFETY: the vector holds the book's order, and the indices at least one more.
    unsafe { silk_NLSF_decode(vector.as_mut_ptr(), indices.as_ptr(), book) }
}

fn address<const N: usize, const P: usize, const S: usize, const G: usize>(
    book: &'static Book<N, P, S, G>,
) -> *const c_void {
    from_ref(book).cast()
}

/// A stabilising that document 01 accepts.
pub fn stabilise(vector: &mut [i16], gaps: &[i16]) {
    let n = vector.len() as i32;
    // SAFETY: there is one gap more than there are values.
    unsafe { silk_NLSF_stabilize(vector.as_mut_ptr(), gaps.as_ptr(), n) }
}

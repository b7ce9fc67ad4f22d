//! What the crate's files use of files that docs/src lacks.

#![allow(non_snake_case)]

/// silk/macros.rs.
pub mod macros {
    pub const EC_CLZ0: i32 = 32;

    pub fn silk_CLZ32(in32: i32) -> i32 {
        in32.leading_zeros() as i32
    }
}

/// silk/resampler: the decoder's and the encoder's state hold one, and nothing here reads it.
pub mod resampler {
    #[derive(Clone, Copy)]
    pub struct ResamplerState;
}

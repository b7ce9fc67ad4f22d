//! The crate's own writing of side indices, which codes a lag relative to the one before where it can.

use super::{Call, Kept};
use crate::domain::order;
use crate::silk::encode_indices::silk_encode_indices;
use crate::silk::structs::silk_encoder_state;
use crate::state::Writer;
use std::mem::MaybeUninit;

/// After a frame of this lag.
pub fn by_the_crate(
    call: &Call,
    prev_lag: i16,
    buffer: &mut [u8],
    writer: Writer,
) -> (Writer, Kept) {
    let mut encoder = MaybeUninit::<silk_encoder_state>::uninit();
    let encoder = encoder.as_mut_ptr();
    let mut ctx = writer.beside(buffer);
    // SAFETY: every field of the encoder that the call looks at is set.
    let kept = unsafe {
        (*encoder).fs_kHz = call.size.khz as i32;
        (*encoder).nb_subfr = call.size.subframes as i32;
        (*encoder).predictLPCOrder = order(call.size.khz) as i32;
        (*encoder).pitch_lag_low_bits_iCDF = call.low_bits();
        (*encoder).pitch_contour_iCDF = call.contours();
        (*encoder).ec_prevSignalType = call.kept.prev_type as i32;
        (*encoder).ec_prevLagIndex = prev_lag;
        (*encoder).psNLSF_CB = call.book();
        (*encoder).indices = call.record.for_the_crate();
        silk_encode_indices(encoder, &mut ctx, 0, 0, call.mode as i32);
        Kept {
            prev_type: (*encoder).ec_prevSignalType as u32,
            prev_lag: (*encoder).ec_prevLagIndex,
        }
    };
    (Writer::of_the_crate(&ctx), kept)
}

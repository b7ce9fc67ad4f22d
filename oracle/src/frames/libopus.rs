//! libopus's calls: the static library's internal functions of silk/main.h.

use super::indices::{self, Kept, Record};
use super::pulses;
use crate::domain::order;
use crate::libopus::{
    silk_NLSF_CB_NB_MB, silk_NLSF_CB_WB, silk_pitch_contour_10_ms_NB_iCDF,
    silk_pitch_contour_10_ms_iCDF, silk_pitch_contour_NB_iCDF, silk_pitch_contour_iCDF,
    silk_uniform4_iCDF, silk_uniform6_iCDF, silk_uniform8_iCDF,
};
use crate::state::{EcCtx, Reader, Writer};
use std::ffi::c_void;
use std::mem::zeroed;
use std::ptr::from_ref;

/// silk_decoder_state of silk/structs.h, from its start to the indices; the call looks at no more.
#[repr(C)]
pub struct Decoder {
    pub signals: [i32; 579],
    pub khz: i32,
    pub api_hz: i32,
    pub subframes: i32,
    pub lengths: [i32; 3],
    pub order: i32,
    pub spectrum: [i16; 16],
    pub first_frame: i32,
    pub low_bits: *const u8,
    pub contours: *const u8,
    pub frames: [i32; 2],
    pub prev_type: i32,
    pub prev_lag: i16,
    pub active: [i32; 3],
    pub again: [i32; 4],
    pub resampler: [u64; 38],
    pub book: *const c_void,
    pub record: Record,
}

extern "C" {
    fn ec_enc_icdf(ctx: *mut EcCtx<i32>, s: i32, icdf: *const u8, ftb: u32);
    fn silk_shell_encoder(ctx: *mut EcCtx<i32>, pulses: *const i32);
    fn silk_encode_signs(
        ctx: *mut EcCtx<i32>,
        pulses: *const i8,
        length: i32,
        signal_type: i32,
        offset_type: i32,
        sum_pulses: *const i32,
    );
    fn silk_decode_indices(
        decoder: *mut Decoder,
        ctx: *mut EcCtx<u32>,
        frame: i32,
        again: i32,
        mode: i32,
    );
    fn silk_decode_pulses(
        ctx: *mut EcCtx<u32>,
        pulses: *mut i16,
        signal_type: i32,
        offset_type: i32,
        length: i32,
    );
}

/// The state and what is left after a call that document 01 accepts.
pub fn indices(
    call: &indices::Call,
    packet: &mut [u8],
    reader: Reader,
) -> (Reader, (Record, Kept)) {
    let mut ctx = EcCtx::beside(packet, reader);
    let mut decoder = decoder(call);
    // SAFETY: a sound reader beside its packet, and all that the call looks at of the decoder.
    unsafe { silk_decode_indices(&mut decoder, &mut ctx, 0, 0, call.mode as i32) };
    let kept = Kept {
        prev_type: decoder.prev_type as u32,
        prev_lag: decoder.prev_lag,
    };
    (ctx.fields, (decoder.record, kept))
}

/// With all that a call on side indices looks at.
pub fn decoder(call: &indices::Call) -> Decoder {
    Decoder {
        khz: call.size.khz as i32,
        subframes: call.size.subframes as i32,
        order: order(call.size.khz) as i32,
        low_bits: low_bits(call.size.khz),
        contours: contours(call.size.khz, call.size.subframes),
        prev_type: call.kept.prev_type as i32,
        prev_lag: call.kept.prev_lag,
        active: [call.active as i32, 0, 0],
        book: book(call.size.khz),
        record: call.record,
        // SAFETY: numbers and pointers, which may be 0.
        ..unsafe { zeroed() }
    }
}

/// The state and the pulses after a call that document 01 accepts.
pub fn pulses(call: &pulses::Call, packet: &mut [u8], reader: Reader) -> (Reader, Vec<i16>) {
    let mut ctx = EcCtx::beside(packet, reader);
    let mut pulses = call.pulses.clone();
    // SAFETY: a sound reader beside its packet; 16 pulses for each block.
    unsafe {
        silk_decode_pulses(
            &mut ctx,
            pulses.as_mut_ptr(),
            call.signal_type as i32,
            call.offset_type as i32,
            call.size.length(),
        )
    };
    (ctx.fields, pulses)
}

/// The state after a writing that document 01 accepts.
pub fn write_pulses(
    given: &pulses::Levelled,
    shifts: &[usize],
    buffer: &mut [u8],
    writer: Writer,
) -> Writer {
    let mut ctx = EcCtx::beside(buffer, writer);
    pulses::write(given, shifts, &mut ctx);
    ctx.fields
}

impl pulses::Pieces for EcCtx<i32> {
    fn symbol(&mut self, symbol: u32, row: &[u8]) {
        // SAFETY: a sound writer beside its buffer, and a symbol of the row.
        unsafe { ec_enc_icdf(self, symbol as i32, row.as_ptr(), 8) }
    }

    fn splits(&mut self, shifted: &[i32; 16]) {
        // SAFETY: a block has 16 places.
        unsafe { silk_shell_encoder(self, shifted.as_ptr()) }
    }

    fn signs(&mut self, call: &pulses::Call, signs: &[i8], sums: &[i32]) {
        let (signal, offset) = (call.signal_type as i32, call.offset_type as i32);
        let (signs, length) = (signs.as_ptr(), call.size.length());
        // SAFETY: there are 16 pulses and a sum for each block.
        unsafe { silk_encode_signs(self, signs, length, signal, offset, sums.as_ptr()) }
    }
}

fn low_bits(khz: u32) -> *const u8 {
    match khz {
        8 => silk_uniform4_iCDF().as_ptr(),
        12 => silk_uniform6_iCDF().as_ptr(),
        _ => silk_uniform8_iCDF().as_ptr(),
    }
}

fn contours(khz: u32, subframes: u32) -> *const u8 {
    match (khz, subframes) {
        (8, 2) => silk_pitch_contour_10_ms_NB_iCDF().as_ptr(),
        (8, _) => silk_pitch_contour_NB_iCDF().as_ptr(),
        (_, 2) => silk_pitch_contour_10_ms_iCDF().as_ptr(),
        _ => silk_pitch_contour_iCDF().as_ptr(),
    }
}

fn book(khz: u32) -> *const c_void {
    match khz {
        16 => from_ref(silk_NLSF_CB_WB()).cast(),
        _ => from_ref(silk_NLSF_CB_NB_MB()).cast(),
    }
}

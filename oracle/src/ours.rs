//! The exported calls of our proved libraries.

use crate::compare::Answer;
use crate::frames::{indices, pulses};
use crate::models::Model;
use crate::spectra::Vector;
use crate::state::{Reader, Writer};

/// What a table answers past its end, and what an unknown table answers everywhere.
pub const END: u32 = 65536;

/// How many tables there are, numbered from 0.
pub const TABLES: u32 = 13;

#[repr(C)]
pub struct Spectrum {
    pub index: [i8; 17],
}

#[repr(C)]
pub struct Moves {
    pub refusal: u32,
    pub moves: u32,
}

pub mod raw {
    use super::{Answer, Moves, Reader, Spectrum, Writer};
    use crate::frames::indices::{IndicesRead, IndicesWritten, Record};
    type Read = Answer<Reader>;
    type Written = Answer<Writer>;

    extern "C" {
        pub fn tg_table_entry(table: u32, place: usize) -> u32;

        // include/tignarops.h
        pub fn tg_dec_open(packet: *const u8, len: usize) -> Read;
        pub fn tg_dec_account(packet: *const u8, len: usize, r: Reader) -> Read;
        pub fn tg_dec_bit(packet: *const u8, len: usize, r: Reader, exponent: u32) -> Read;
        pub fn tg_dec_icdf(
            packet: *const u8,
            len: usize,
            r: Reader,
            table: *const u8,
            n: usize,
            scale: u32,
        ) -> Read;
        pub fn tg_dec_uint(packet: *const u8, len: usize, r: Reader, total: u32) -> Read;
        pub fn tg_dec_bits(packet: *const u8, len: usize, r: Reader, bits: u32) -> Read;

        pub fn tg_enc_open(buf: *const u8, len: usize) -> Written;
        pub fn tg_enc_account(buf: *const u8, len: usize, w: Writer) -> Written;
        pub fn tg_enc_bit(buf: *mut u8, len: usize, w: Writer, value: u32, exp: u32) -> Written;
        pub fn tg_enc_icdf(
            buf: *mut u8,
            len: usize,
            w: Writer,
            symbol: u32,
            table: *const u8,
            n: usize,
            scale: u32,
        ) -> Written;
        pub fn tg_enc_uint(buf: *mut u8, len: usize, w: Writer, value: u32, total: u32) -> Written;
        pub fn tg_enc_bits(buf: *mut u8, len: usize, w: Writer, value: u32, bits: u32) -> Written;
        pub fn tg_enc_done(buf: *mut u8, len: usize, w: Writer) -> Written;

        pub fn tg_decode_indices(
            packet: *const u8,
            len: usize,
            r: Reader,
            record: Record,
            khz: u32,
            subframes: u32,
            active: u32,
            mode: u32,
            prev_type: u32,
            prev_lag: i16,
        ) -> IndicesRead;
        pub fn tg_encode_indices(
            buf: *mut u8,
            len: usize,
            w: Writer,
            record: Record,
            khz: u32,
            subframes: u32,
            active: u32,
            mode: u32,
            prev_type: u32,
            prev_lag: i16,
        ) -> IndicesWritten;
        pub fn tg_decode_pulses(
            packet: *const u8,
            len: usize,
            r: Reader,
            pulses: *mut i16,
            n: usize,
            khz: u32,
            subframes: u32,
            signal_type: u32,
            offset_type: u32,
        ) -> Read;
        pub fn tg_encode_pulses(
            buf: *mut u8,
            len: usize,
            w: Writer,
            pulses: *const i16,
            n: usize,
            khz: u32,
            subframes: u32,
            signal_type: u32,
            offset_type: u32,
            rate_level: u32,
        ) -> Written;

        pub fn tg_nlsf_decode(vector: *mut i16, n: usize, indices: Spectrum, khz: u32) -> Moves;
        pub fn tg_nlsf_stabilise(v: *mut i16, n: usize, gaps: *const i16, m: usize) -> Moves;
    }
}

pub fn table_entry(table: u32, place: usize) -> u32 {
    // SAFETY: numbers in, a number out, and it is defined for all of them.
    unsafe { raw::tg_table_entry(table, place) }
}

// SAFETY of the coder's calls: each pointer comes with its slice's length, a table is no part of the
// bytes that are lent for writing, and the calls are defined for all numbers, states and bytes.
// Inlined where the speed of the call itself is measured.

#[inline(always)]
pub fn dec_open(packet: &[u8]) -> Answer<Reader> {
    unsafe { raw::tg_dec_open(packet.as_ptr(), packet.len()) }
}

#[inline(always)]
pub fn dec_account(packet: &[u8], r: Reader) -> Answer<Reader> {
    unsafe { raw::tg_dec_account(packet.as_ptr(), packet.len(), r) }
}

#[inline(always)]
pub fn dec(packet: &[u8], r: Reader, model: Model) -> Answer<Reader> {
    let (bytes, len) = (packet.as_ptr(), packet.len());
    unsafe {
        match model {
            Model::Bit(exponent) => raw::tg_dec_bit(bytes, len, r, exponent),
            Model::Table(table, scale) => {
                raw::tg_dec_icdf(bytes, len, r, table.as_ptr(), table.len(), scale)
            }
            Model::Number(total) => raw::tg_dec_uint(bytes, len, r, total),
            Model::Bits(bits) => raw::tg_dec_bits(bytes, len, r, bits),
        }
    }
}

#[inline(always)]
pub fn enc_open(buffer: &[u8]) -> Answer<Writer> {
    unsafe { raw::tg_enc_open(buffer.as_ptr(), buffer.len()) }
}

pub fn enc_account(buffer: &[u8], w: Writer) -> Answer<Writer> {
    unsafe { raw::tg_enc_account(buffer.as_ptr(), buffer.len(), w) }
}

#[inline(always)]
pub fn enc(buffer: &mut [u8], w: Writer, model: Model, value: u32) -> Answer<Writer> {
    let (bytes, len) = (buffer.as_mut_ptr(), buffer.len());
    unsafe {
        match model {
            Model::Bit(exponent) => raw::tg_enc_bit(bytes, len, w, value, exponent),
            Model::Table(table, scale) => {
                raw::tg_enc_icdf(bytes, len, w, value, table.as_ptr(), table.len(), scale)
            }
            Model::Number(total) => raw::tg_enc_uint(bytes, len, w, value, total),
            Model::Bits(bits) => raw::tg_enc_bits(bytes, len, w, value, bits),
        }
    }
}

#[inline(always)]
pub fn enc_done(buffer: &mut [u8], w: Writer) -> Answer<Writer> {
    unsafe { raw::tg_enc_done(buffer.as_mut_ptr(), buffer.len(), w) }
}

pub fn decode_indices(packet: &[u8], r: Reader, call: &indices::Call) -> indices::IndicesRead {
    unsafe {
        raw::tg_decode_indices(
            packet.as_ptr(),
            packet.len(),
            r,
            call.record,
            call.size.khz,
            call.size.subframes,
            call.active,
            call.mode,
            call.kept.prev_type,
            call.kept.prev_lag,
        )
    }
}

pub fn encode_indices(
    buffer: &mut [u8],
    w: Writer,
    call: &indices::Call,
) -> indices::IndicesWritten {
    unsafe {
        raw::tg_encode_indices(
            buffer.as_mut_ptr(),
            buffer.len(),
            w,
            call.record,
            call.size.khz,
            call.size.subframes,
            call.active,
            call.mode,
            call.kept.prev_type,
            call.kept.prev_lag,
        )
    }
}

/// The answer, and what it leaves in the call's pulses.
pub fn decode_pulses(packet: &[u8], r: Reader, call: &pulses::Call) -> (Answer<Reader>, Vec<i16>) {
    let mut pulses = call.pulses.clone();
    let answer = unsafe {
        raw::tg_decode_pulses(
            packet.as_ptr(),
            packet.len(),
            r,
            pulses.as_mut_ptr(),
            pulses.len(),
            call.size.khz,
            call.size.subframes,
            call.signal_type,
            call.offset_type,
        )
    };
    (answer, pulses)
}

pub fn encode_pulses(buffer: &mut [u8], w: Writer, given: &pulses::Levelled) -> Answer<Writer> {
    let call = &given.call;
    unsafe {
        raw::tg_encode_pulses(
            buffer.as_mut_ptr(),
            buffer.len(),
            w,
            call.pulses.as_ptr(),
            call.pulses.len(),
            call.size.khz,
            call.size.subframes,
            call.signal_type,
            call.offset_type,
            given.rate_level,
        )
    }
}

// SAFETY of the calls on line spectra: the same, and no gap is a part of the vector.

pub fn nlsf_decode(mut vector: Vector, index: [i8; 17], khz: u32) -> Answer<Vector> {
    let lent = vector.values_mut();
    let (values, n) = (lent.as_mut_ptr(), lent.len());
    let moves = unsafe { raw::tg_nlsf_decode(values, n, Spectrum { index }, khz) };
    left(moves, vector)
}

pub fn nlsf_stabilise(mut vector: Vector, gaps: &[i16]) -> Answer<Vector> {
    let lent = vector.values_mut();
    let (values, n) = (lent.as_mut_ptr(), lent.len());
    let moves = unsafe { raw::tg_nlsf_stabilise(values, n, gaps.as_ptr(), gaps.len()) };
    left(moves, vector)
}

fn left(answer: Moves, state: Vector) -> Answer<Vector> {
    Answer {
        refusal: answer.refusal,
        value: answer.moves,
        state,
    }
}

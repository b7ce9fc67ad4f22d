//! The C interface as it is (include/tignarops.h).

use crate::{Indices, ReaderState, WriterState};

#[repr(C)]
pub struct Read {
    pub refusal: u32,
    pub value: u32,
    pub state: ReaderState,
}

#[repr(C)]
pub struct Written {
    pub refusal: u32,
    pub value: u32,
    pub state: WriterState,
}

#[repr(C)]
pub struct IndicesRead {
    pub refusal: u32,
    pub state: ReaderState,
    pub record: Indices,
    pub prev_type: u32,
    pub prev_lag: i16,
}

#[repr(C)]
pub struct IndicesWritten {
    pub refusal: u32,
    pub state: WriterState,
    pub prev_type: u32,
    pub prev_lag: i16,
}

#[repr(C)]
pub struct Spectrum {
    pub index: [i8; 17],
}

#[repr(C)]
pub struct Moves {
    pub refusal: u32,
    pub moves: u32,
}

#[repr(C)]
#[derive(Clone, Copy, Debug)]
pub struct Packet {
    pub refusal: u32,
    pub config: u32,
    pub arrangement: u32,
    pub count: u32,
    pub padding: u32,
    pub start: [u16; 12],
    pub size: [u16; 12],
}

#[repr(C)]
pub struct PacketWritten {
    pub refusal: u32,
    pub length: u32,
}

#[rustfmt::skip]
extern "C" {
    pub fn tg_dec_open(packet: *const u8, len: usize) -> Read;
    pub fn tg_dec_account(packet: *const u8, len: usize, r: ReaderState) -> Read;
    pub fn tg_dec_bit(packet: *const u8, len: usize, r: ReaderState, exponent: u32) -> Read;
    pub fn tg_dec_icdf(packet: *const u8, len: usize, r: ReaderState, table: *const u8, n: usize, scale: u32) -> Read;
    pub fn tg_dec_uint(packet: *const u8, len: usize, r: ReaderState, total: u32) -> Read;
    pub fn tg_dec_bits(packet: *const u8, len: usize, r: ReaderState, bits: u32) -> Read;
    pub fn tg_enc_open(buf: *const u8, len: usize) -> Written;
    pub fn tg_enc_account(buf: *const u8, len: usize, w: WriterState) -> Written;
    pub fn tg_enc_bit(buf: *mut u8, len: usize, w: WriterState, value: u32, exponent: u32) -> Written;
    pub fn tg_enc_icdf(buf: *mut u8, len: usize, w: WriterState, symbol: u32, table: *const u8, n: usize, scale: u32) -> Written;
    pub fn tg_enc_uint(buf: *mut u8, len: usize, w: WriterState, value: u32, total: u32) -> Written;
    pub fn tg_enc_bits(buf: *mut u8, len: usize, w: WriterState, value: u32, bits: u32) -> Written;
    pub fn tg_enc_done(buf: *mut u8, len: usize, w: WriterState) -> Written;
    pub fn tg_decode_indices(packet: *const u8, len: usize, r: ReaderState, record: Indices, khz: u32, subframes: u32, active: u32, mode: u32, prev_type: u32, prev_lag: i16) -> IndicesRead;
    pub fn tg_encode_indices(buf: *mut u8, len: usize, w: WriterState, record: Indices, khz: u32, subframes: u32, active: u32, mode: u32, prev_type: u32, prev_lag: i16) -> IndicesWritten;
    pub fn tg_decode_pulses(packet: *const u8, len: usize, r: ReaderState, pulses: *mut i16, n: usize, khz: u32, subframes: u32, signal_type: u32, offset_type: u32) -> Read;
    pub fn tg_encode_pulses(buf: *mut u8, len: usize, w: WriterState, pulses: *const i16, n: usize, khz: u32, subframes: u32, signal_type: u32, offset_type: u32, rate_level: u32) -> Written;
    pub fn tg_nlsf_decode(vector: *mut i16, n: usize, indices: Spectrum, khz: u32) -> Moves;
    pub fn tg_nlsf_stabilise(vector: *mut i16, n: usize, gaps: *const i16, m: usize) -> Moves;
    pub fn tg_packet_read(packet: *const u8, len: usize) -> Packet;
    pub fn tg_packet_write(buf: *mut u8, len: usize, config: u32, frames: *const u8, n: usize, sizes: *const u16, count: usize, length: u32) -> PacketWritten;
}

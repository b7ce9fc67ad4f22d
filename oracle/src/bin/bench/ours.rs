//! Our exported calls: a state by value goes in and comes back.

use crate::side::{Kind, Pulses, Scribe, Setting, Side};
use crate::size::Size;
use oracle::frames::indices::Record;
use oracle::models::Model;
use oracle::ours::raw::{
    tg_decode_indices, tg_decode_pulses, tg_encode_indices, tg_encode_pulses, tg_nlsf_decode,
    tg_nlsf_stabilise,
};
use oracle::ours::{dec, dec_open, enc, enc_done, enc_open, Spectrum};
use oracle::state::{Reader, Writer};
use std::hint::black_box;

pub struct Ours;

pub struct Reading<'a> {
    packet: &'a [u8],
    pub state: Reader,
}

pub struct Writing<'a> {
    buffer: &'a mut [u8],
    state: Writer,
}

/// The size, and the record that each frame leaves to the next.
pub struct Decoder(Size, Record);

// SAFETY of the calls here: each pointer comes with its slice's length.

impl Side for Ours {
    type Reader<'a> = Reading<'a>;
    type Writer<'a> = Writing<'a>;
    type Decoder = Decoder;

    #[inline(always)]
    fn open(packet: &mut [u8]) -> Reading<'_> {
        let state = dec_open(packet).state;
        Reading { packet, state }
    }

    #[inline(always)]
    fn resume(packet: &mut [u8], state: Reader) -> Reading<'_> {
        Reading { packet, state }
    }

    #[inline(always)]
    fn reader_range(reader: &Reading) -> u32 {
        reader.state.rng
    }

    #[inline(always)]
    fn read(reader: &mut Reading, model: Model) -> u32 {
        let answer = dec(reader.packet, reader.state, model);
        reader.state = answer.state;
        answer.value
    }

    #[inline(always)]
    fn fresh(buffer: &mut [u8]) -> Writing<'_> {
        let state = enc_open(buffer).state;
        Writing { buffer, state }
    }

    #[inline(always)]
    fn writer_state(writer: &Writing) -> Writer {
        writer.state
    }

    #[inline(always)]
    fn write(writer: &mut Writing, model: Model, value: u32) {
        writer.state = enc(writer.buffer, writer.state, model, value).state;
    }

    #[inline(always)]
    fn finish(writer: &mut Writing) {
        writer.state = enc_done(writer.buffer, writer.state).state;
    }

    fn decoder(size: Size) -> Decoder {
        Decoder(size, Record::default())
    }

    #[inline(always)]
    fn read_indices(
        Decoder(size, record): &mut Decoder,
        reader: &mut Reading,
        setting: Setting,
    ) -> Kind {
        let read = unsafe {
            tg_decode_indices(
                reader.packet.as_ptr(),
                reader.packet.len(),
                reader.state,
                *record,
                size.khz,
                size.subframes,
                setting.active,
                setting.mode,
                setting.prev_type,
                setting.prev_lag,
            )
        };
        (reader.state, *record) = (read.state, read.record);
        (record.signal_type as u32, record.offset_type as u32)
    }

    #[inline(always)]
    fn read_pulses(reader: &mut Reading, pulses: &mut [i16], size: Size, kind: Kind) {
        let answer = unsafe {
            tg_decode_pulses(
                reader.packet.as_ptr(),
                reader.packet.len(),
                reader.state,
                pulses.as_mut_ptr(),
                pulses.len(),
                size.khz,
                size.subframes,
                kind.0,
                kind.1,
            )
        };
        reader.state = answer.state;
    }

    #[inline(always)]
    fn decode_spectrum(vector: &mut [i16], indices: &[i8; 17], khz: u32) {
        let indices = Spectrum { index: *indices };
        black_box(unsafe { tg_nlsf_decode(vector.as_mut_ptr(), vector.len(), indices, khz) }.moves);
    }

    #[inline(always)]
    fn stabilise(vector: &mut [i16], gaps: &[i16]) {
        let (values, n) = (vector.as_mut_ptr(), vector.len());
        black_box(unsafe { tg_nlsf_stabilise(values, n, gaps.as_ptr(), gaps.len()) }.moves);
    }
}

impl Scribe for Ours {
    type Encoder = Size;

    fn encoder(size: Size) -> Size {
        size
    }

    #[inline(always)]
    fn write_indices(size: &mut Size, writer: &mut Writing, setting: Setting, record: Record) {
        let written = unsafe {
            tg_encode_indices(
                writer.buffer.as_mut_ptr(),
                writer.buffer.len(),
                writer.state,
                record,
                size.khz,
                size.subframes,
                setting.active,
                setting.mode,
                setting.prev_type,
                setting.prev_lag,
            )
        };
        writer.state = written.state;
    }

    #[inline(always)]
    fn write_pulses(writer: &mut Writing, pulses: &mut Pulses, size: Size, kind: Kind, level: u32) {
        let answer = unsafe {
            tg_encode_pulses(
                writer.buffer.as_mut_ptr(),
                writer.buffer.len(),
                writer.state,
                pulses.wide.as_ptr(),
                pulses.wide.len(),
                size.khz,
                size.subframes,
                kind.0,
                kind.1,
                level,
            )
        };
        writer.state = answer.state;
    }
}

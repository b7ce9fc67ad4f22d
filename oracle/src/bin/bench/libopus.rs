//! The functions of libopus's static library, those of its headers and the internal ones.

use crate::side::{Kind, Pulses, Scribe, Setting, Side};
use crate::size::Size;
use oracle::frames::indices::Record;
use oracle::frames::libopus::Decoder;
use oracle::models::Model;
use oracle::state::{EcCtx, Reader, Writer};
use std::ffi::{c_char, c_void, CStr};
use std::mem::zeroed;

extern "C" {
    fn ec_dec_init(ctx: *mut EcCtx<u32>, buf: *mut u8, storage: u32);
    fn ec_dec_bit_logp(ctx: *mut EcCtx<u32>, logp: u32) -> i32;
    fn ec_dec_icdf(ctx: *mut EcCtx<u32>, icdf: *const u8, ftb: u32) -> i32;
    fn ec_dec_uint(ctx: *mut EcCtx<u32>, ft: u32) -> u32;
    fn ec_dec_bits(ctx: *mut EcCtx<u32>, bits: u32) -> u32;
    fn ec_enc_init(ctx: *mut EcCtx<i32>, buf: *mut u8, size: u32);
    fn ec_enc_bit_logp(ctx: *mut EcCtx<i32>, val: i32, logp: u32);
    fn ec_enc_icdf(ctx: *mut EcCtx<i32>, s: i32, icdf: *const u8, ftb: u32);
    fn ec_enc_uint(ctx: *mut EcCtx<i32>, fl: u32, ft: u32);
    fn ec_enc_bits(ctx: *mut EcCtx<i32>, fl: u32, bits: u32);
    fn ec_enc_done(ctx: *mut EcCtx<i32>);

    fn silk_decode_indices(
        decoder: *mut Decoder,
        ctx: *mut EcCtx<u32>,
        frame: i32,
        again: i32,
        mode: i32,
    );
    fn silk_decode_pulses(
        ctx: *mut EcCtx<u32>,
        pulses: *mut i16,
        signal: i32,
        offset: i32,
        length: i32,
    );
    fn silk_encode_indices(
        encoder: *mut Encoder,
        ctx: *mut EcCtx<i32>,
        frame: i32,
        again: i32,
        mode: i32,
    );
    fn silk_encode_pulses(
        ctx: *mut EcCtx<i32>,
        signal: i32,
        offset: i32,
        pulses: *mut i8,
        length: i32,
    );
    fn silk_NLSF_decode(nlsf_q15: *mut i16, indices: *const i8, book: *const c_void);
    fn silk_NLSF_stabilize(nlsf_q15: *mut i16, gaps_q15: *const i16, n: i32);
    fn opus_get_version_string() -> *const c_char;
    static silk_NLSF_CB_NB_MB: c_void;
    static silk_NLSF_CB_WB: c_void;
}

/// silk_encoder_state of silk/structs.h, from its start to the previous lag; the call looks at no more.
#[repr(C)]
pub struct Encoder {
    signals: [i32; 1144],
    khz: i32,
    subframes: i32,
    numbers: [i32; 14],
    order: i32,
    choices: [i32; 11],
    low_bits: *const u8,
    contours: *const u8,
    book: *const c_void,
    qualities: [i32; 10],
    record: Record,
    input: [i32; 249],
    prev_type: i32,
    prev_lag: i16,
}

pub struct Libopus;

pub fn version() -> &'static str {
    // SAFETY: a constant text of the library's.
    let version = unsafe { CStr::from_ptr(opus_get_version_string()) };
    version.to_str().expect("plain letters")
}

// SAFETY of the calls here: a coder has its bytes for as long, a table ends in 0, and a frame of this
// length, a vector with its gaps or indices are what the functions ask for.

impl Side for Libopus {
    type Reader<'a> = EcCtx<u32>;
    type Writer<'a> = EcCtx<i32>;
    type Decoder = Box<Decoder>;

    #[inline(always)]
    fn open(packet: &mut [u8]) -> EcCtx<u32> {
        let mut ctx = Libopus::resume(packet, Reader::default());
        unsafe { ec_dec_init(&mut ctx, packet.as_mut_ptr(), packet.len() as u32) };
        ctx
    }

    #[inline(always)]
    fn resume(packet: &mut [u8], fields: Reader) -> EcCtx<u32> {
        EcCtx::beside(packet, fields)
    }

    #[inline(always)]
    fn reader_range(ctx: &EcCtx<u32>) -> u32 {
        ctx.fields.rng
    }

    #[inline(always)]
    fn read(ctx: &mut EcCtx<u32>, model: Model) -> u32 {
        unsafe {
            match model {
                Model::Bit(exponent) => ec_dec_bit_logp(ctx, exponent) as u32,
                Model::Table(row, scale) => ec_dec_icdf(ctx, row.as_ptr(), scale) as u32,
                Model::Number(total) => ec_dec_uint(ctx, total),
                Model::Bits(bits) => ec_dec_bits(ctx, bits),
            }
        }
    }

    #[inline(always)]
    fn fresh(buffer: &mut [u8]) -> EcCtx<i32> {
        let mut ctx = EcCtx::beside(buffer, Writer::default());
        unsafe { ec_enc_init(&mut ctx, buffer.as_mut_ptr(), buffer.len() as u32) };
        ctx
    }

    #[inline(always)]
    fn writer_state(ctx: &EcCtx<i32>) -> Writer {
        ctx.fields
    }

    #[inline(always)]
    fn write(ctx: &mut EcCtx<i32>, model: Model, value: u32) {
        unsafe {
            match model {
                Model::Bit(exponent) => ec_enc_bit_logp(ctx, value as i32, exponent),
                Model::Table(row, scale) => ec_enc_icdf(ctx, value as i32, row.as_ptr(), scale),
                Model::Number(total) => ec_enc_uint(ctx, value, total),
                Model::Bits(bits) => ec_enc_bits(ctx, value, bits),
            }
        }
    }

    #[inline(always)]
    fn finish(ctx: &mut EcCtx<i32>) {
        unsafe { ec_enc_done(ctx) }
    }

    fn decoder(size: Size) -> Box<Decoder> {
        Box::new(oracle::frames::libopus::decoder(&size.call()))
    }

    #[inline(always)]
    fn read_indices(decoder: &mut Box<Decoder>, ctx: &mut EcCtx<u32>, setting: Setting) -> Kind {
        decoder.active[0] = setting.active as i32;
        decoder.prev_type = setting.prev_type as i32;
        decoder.prev_lag = setting.prev_lag;
        unsafe { silk_decode_indices(&mut **decoder, ctx, 0, 0, setting.mode as i32) };
        let record = &decoder.record;
        (record.signal_type as u32, record.offset_type as u32)
    }

    #[inline(always)]
    fn read_pulses(ctx: &mut EcCtx<u32>, pulses: &mut [i16], size: Size, kind: Kind) {
        let (signal, offset) = (kind.0 as i32, kind.1 as i32);
        unsafe {
            silk_decode_pulses(
                ctx,
                pulses.as_mut_ptr(),
                signal,
                offset,
                size.length() as i32,
            )
        }
    }

    #[inline(always)]
    fn decode_spectrum(vector: &mut [i16], indices: &[i8; 17], khz: u32) {
        unsafe {
            let book = match khz {
                16 => &raw const silk_NLSF_CB_WB,
                _ => &raw const silk_NLSF_CB_NB_MB,
            };
            silk_NLSF_decode(vector.as_mut_ptr(), indices.as_ptr(), book)
        }
    }

    #[inline(always)]
    fn stabilise(vector: &mut [i16], gaps: &[i16]) {
        let n = vector.len() as i32;
        unsafe { silk_NLSF_stabilize(vector.as_mut_ptr(), gaps.as_ptr(), n) }
    }
}

impl Scribe for Libopus {
    type Encoder = Box<Encoder>;

    fn encoder(size: Size) -> Box<Encoder> {
        let decoder = Libopus::decoder(size);
        Box::new(Encoder {
            khz: decoder.khz,
            subframes: decoder.subframes,
            order: decoder.order,
            low_bits: decoder.low_bits,
            contours: decoder.contours,
            book: decoder.book,
            // SAFETY: numbers and pointers, which may be 0.
            ..unsafe { zeroed() }
        })
    }

    #[inline(always)]
    fn write_indices(
        encoder: &mut Box<Encoder>,
        ctx: &mut EcCtx<i32>,
        setting: Setting,
        record: Record,
    ) {
        encoder.prev_type = setting.prev_type as i32;
        encoder.prev_lag = setting.prev_lag;
        encoder.record = record;
        unsafe { silk_encode_indices(&mut **encoder, ctx, 0, 0, setting.mode as i32) }
    }

    #[inline(always)]
    fn write_pulses(ctx: &mut EcCtx<i32>, pulses: &mut Pulses, size: Size, kind: Kind, _: u32) {
        let (signal, offset) = (kind.0 as i32, kind.1 as i32);
        let pulses = pulses.narrow.as_mut_ptr();
        unsafe { silk_encode_pulses(ctx, signal, offset, pulses, size.length() as i32) }
    }
}

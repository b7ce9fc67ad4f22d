//! The crate's functions, built for release: no overflow checks.

use crate::side::{Kind, Pulses, Scribe, Setting, Side};
use crate::size::Size;
use oracle::celt::entcode::ec_ctx;
use oracle::celt::entdec::{ec_dec_bit_logp, ec_dec_bits, ec_dec_icdf, ec_dec_init, ec_dec_uint};
use oracle::celt::entenc::{
    ec_enc_bit_logp, ec_enc_bits, ec_enc_done, ec_enc_icdf, ec_enc_init, ec_enc_uint,
};
use oracle::frames::indices::{set, Record};
use oracle::models::Model;
use oracle::silk::decode_indices::silk_decode_indices;
use oracle::silk::decode_pulses::silk_decode_pulses;
use oracle::silk::encode_indices::silk_encode_indices;
use oracle::silk::encode_pulses::silk_encode_pulses;
use oracle::silk::structs::{
    silk_NLSF_CB_struct, silk_decoder_state, silk_encoder_state, SideInfoIndices,
};
use oracle::silk::tables_NLSF_CB_NB_MB::silk_NLSF_CB_NB_MB;
use oracle::silk::tables_NLSF_CB_WB::silk_NLSF_CB_WB;
use oracle::silk::NLSF_decode::silk_NLSF_decode;
use oracle::silk::NLSF_stabilize::silk_NLSF_stabilize;
use oracle::state::{Reader, Writer};
use std::mem::{transmute, MaybeUninit};

pub struct Unopus;

pub fn book(khz: u32) -> &'static silk_NLSF_CB_struct {
    match khz {
        16 => &silk_NLSF_CB_WB,
        _ => &silk_NLSF_CB_NB_MB,
    }
}

impl Side for Unopus {
    type Reader<'a> = ec_ctx<'a>;
    type Writer<'a> = ec_ctx<'a>;
    type Decoder = Box<MaybeUninit<silk_decoder_state>>;

    #[inline(always)]
    fn open(packet: &mut [u8]) -> ec_ctx<'_> {
        ec_dec_init(packet)
    }

    #[inline(always)]
    fn resume(packet: &mut [u8], state: Reader) -> ec_ctx<'_> {
        state.beside(packet)
    }

    #[inline(always)]
    fn reader_range(ctx: &ec_ctx) -> u32 {
        ctx.rng
    }

    #[inline(always)]
    fn read(ctx: &mut ec_ctx, model: Model) -> u32 {
        match model {
            Model::Bit(exponent) => ec_dec_bit_logp(ctx, exponent) as u32,
            Model::Table(row, scale) => ec_dec_icdf(ctx, row, scale) as u32,
            Model::Number(total) => ec_dec_uint(ctx, total),
            Model::Bits(bits) => ec_dec_bits(ctx, bits),
        }
    }

    #[inline(always)]
    fn fresh(buffer: &mut [u8]) -> ec_ctx<'_> {
        ec_enc_init(buffer)
    }

    #[inline(always)]
    fn writer_state(ctx: &ec_ctx) -> Writer {
        Writer::of_the_crate(ctx)
    }

    #[inline(always)]
    fn write(ctx: &mut ec_ctx, model: Model, value: u32) {
        match model {
            Model::Bit(exponent) => ec_enc_bit_logp(ctx, value as i32, exponent),
            Model::Table(row, scale) => ec_enc_icdf(ctx, value as i32, row, scale),
            Model::Number(total) => ec_enc_uint(ctx, value, total),
            Model::Bits(bits) => ec_enc_bits(ctx, value, bits),
        }
    }

    #[inline(always)]
    fn finish(ctx: &mut ec_ctx) {
        ec_enc_done(ctx);
    }

    fn decoder(size: Size) -> Self::Decoder {
        let mut decoder = Box::new(MaybeUninit::uninit());
        // SAFETY: the memory is the box's own.
        unsafe { set(decoder.as_mut_ptr(), &size.call()) };
        decoder
    }

    #[inline(always)]
    fn read_indices(decoder: &mut Self::Decoder, ctx: &mut ec_ctx, setting: Setting) -> Kind {
        let decoder = decoder.as_mut_ptr();
        // SAFETY: every field of the decoder that the call looks at is set.
        unsafe {
            (*decoder).VAD_flags[0] = setting.active as i32;
            (*decoder).ec_prevSignalType = setting.prev_type as i32;
            (*decoder).ec_prevLagIndex = setting.prev_lag;
            silk_decode_indices(decoder, ctx, 0, 0, setting.mode as i32);
            let indices = &(*decoder).indices;
            (indices.signalType as u32, indices.quantOffsetType as u32)
        }
    }

    #[inline(always)]
    fn read_pulses(ctx: &mut ec_ctx, pulses: &mut [i16], size: Size, kind: Kind) {
        let (signal, offset) = (kind.0 as i32, kind.1 as i32);
        // SAFETY: there are 16 pulses for each block.
        unsafe {
            silk_decode_pulses(
                ctx,
                pulses.as_mut_ptr(),
                signal,
                offset,
                size.length() as i32,
            )
        }
    }

    #[inline(always)]
    fn decode_spectrum(vector: &mut [i16], indices: &[i8; 17], khz: u32) {
        silk_NLSF_decode(vector, &indices[..=vector.len()], book(khz));
    }

    #[inline(always)]
    fn stabilise(vector: &mut [i16], gaps: &[i16]) {
        silk_NLSF_stabilize(vector, gaps);
    }
}

impl Scribe for Unopus {
    type Encoder = Box<MaybeUninit<silk_encoder_state>>;

    fn encoder(size: Size) -> Self::Encoder {
        let mut encoder = Box::new(MaybeUninit::<silk_encoder_state>::uninit());
        let mut decoder = Unopus::decoder(size);
        let (to, from) = (encoder.as_mut_ptr(), decoder.as_mut_ptr());
        // SAFETY: the decoder has all of this.
        unsafe {
            (*to).fs_kHz = (*from).fs_kHz;
            (*to).nb_subfr = (*from).nb_subfr;
            (*to).predictLPCOrder = (*from).LPC_order;
            (*to).pitch_lag_low_bits_iCDF = (*from).pitch_lag_low_bits_iCDF;
            (*to).pitch_contour_iCDF = (*from).pitch_contour_iCDF;
            (*to).psNLSF_CB = (*from).psNLSF_CB;
        }
        encoder
    }

    #[inline(always)]
    fn write_indices(
        encoder: &mut Self::Encoder,
        ctx: &mut ec_ctx,
        setting: Setting,
        record: Record,
    ) {
        let encoder = encoder.as_mut_ptr();
        // SAFETY: every field of the encoder that the call looks at is set; a record is numbers, laid
        // out as the crate's.
        unsafe {
            (*encoder).ec_prevSignalType = setting.prev_type as i32;
            (*encoder).ec_prevLagIndex = setting.prev_lag;
            (*encoder).indices = transmute::<Record, SideInfoIndices>(record);
            silk_encode_indices(encoder, ctx, 0, 0, setting.mode as i32);
        }
    }

    #[inline(always)]
    fn write_pulses(ctx: &mut ec_ctx, pulses: &mut Pulses, size: Size, kind: Kind, _: u32) {
        let (signal, offset) = (kind.0 as i32, kind.1 as i32);
        let pulses = &mut pulses.narrow;
        silk_encode_pulses(ctx, signal, offset, pulses, size.length() as i32);
    }
}

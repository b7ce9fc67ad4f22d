//! The writer's calls: ours, the crate's and libopus's.

use super::{Ask, Writing};
use crate::celt::entcode::ec_tell;
use crate::celt::entenc::{
    ec_enc_bit_logp, ec_enc_bits, ec_enc_done, ec_enc_icdf, ec_enc_init, ec_enc_uint,
};
use crate::coder::guarded;
use crate::compare::{Answer, Sides};
use crate::domain;
use crate::models::Model;
use crate::ours;
use crate::state::Writer;

impl Sides for Writing {
    fn ours(buffer: &mut [u8], writer: Writer, ask: Ask) -> Answer<Writer> {
        match ask {
            Ask::Open => ours::enc_open(buffer),
            Ask::Account => ours::enc_account(buffer, writer),
            Ask::Write(model, value) => ours::enc(buffer, writer, model, value),
            Ask::Done { .. } => ours::enc_done(buffer, writer),
        }
    }

    fn unopus(buffer: &mut [u8], writer: Writer, ask: Ask) -> Answer<Writer> {
        guarded::<Self>(buffer, (writer, ask), |buffer| match ask {
            Ask::Open => (0, Writer::of_the_crate(&ec_enc_init(buffer))),
            Ask::Account => (ec_tell(&writer.beside(buffer)) as u32, writer),
            Ask::Write(model, value) => (0, write(buffer, writer, model, value)),
            Ask::Done { .. } => (0, done(buffer, writer)),
        })
    }

    #[cfg(libopus)]
    fn libopus(buffer: &mut [u8], writer: Writer, ask: Ask) -> Answer<Writer> {
        guarded::<Self>(buffer, (writer, ask), |buffer| {
            (0, super::libopus::write(buffer, writer, ask))
        })
    }

    fn refusal(buffer: &[u8], writer: &Writer, ask: Ask) -> u32 {
        domain::writer_refusal(buffer, writer, ask)
    }
}

/// The crate's state after a write that document 01 accepts.
fn write(buffer: &mut [u8], writer: Writer, model: Model, value: u32) -> Writer {
    let mut ctx = writer.beside(buffer);
    match model {
        Model::Bit(exponent) => ec_enc_bit_logp(&mut ctx, value as i32, exponent),
        Model::Table(entries, scale) => ec_enc_icdf(&mut ctx, value as i32, entries, scale),
        Model::Number(total) => ec_enc_uint(&mut ctx, value, total),
        Model::Bits(bits) => ec_enc_bits(&mut ctx, value, bits),
    }
    Writer::of_the_crate(&ctx)
}

fn done(buffer: &mut [u8], writer: Writer) -> Writer {
    let mut ctx = writer.beside(buffer);
    ec_enc_done(&mut ctx);
    Writer::of_the_crate(&ctx)
}

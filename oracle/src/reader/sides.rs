//! The reader's calls: ours, the crate's and libopus's.

use super::{Ask, Reading};
use crate::celt::entcode::ec_tell;
use crate::celt::entdec::{ec_dec_bit_logp, ec_dec_bits, ec_dec_icdf, ec_dec_init, ec_dec_uint};
use crate::coder::guarded;
use crate::compare::{Answer, Sides};
use crate::domain;
use crate::models::Model;
use crate::ours;
use crate::state::Reader;

impl Sides for Reading {
    fn ours(packet: &mut [u8], reader: Reader, ask: Ask) -> Answer<Reader> {
        match ask {
            Ask::Open => ours::dec_open(packet),
            Ask::Account => ours::dec_account(packet, reader),
            Ask::Read(model) => ours::dec(packet, reader, model),
        }
    }

    fn unopus(packet: &mut [u8], reader: Reader, ask: Ask) -> Answer<Reader> {
        guarded::<Self>(packet, (reader, ask), |packet| match ask {
            Ask::Open => (0, Reader::of_the_crate(&ec_dec_init(packet))),
            Ask::Account => (ec_tell(&reader.beside(packet)) as u32, reader),
            Ask::Read(model) => read(packet, reader, model),
        })
    }

    #[cfg(libopus)]
    fn libopus(packet: &mut [u8], reader: Reader, ask: Ask) -> Answer<Reader> {
        guarded::<Self>(packet, (reader, ask), |packet| {
            super::libopus::read(packet, reader, ask)
        })
    }

    fn refusal(packet: &[u8], reader: &Reader, ask: Ask) -> u32 {
        domain::reader_refusal(packet, reader, ask)
    }
}

/// The crate's value and state after a read that document 01 accepts.
pub fn read(packet: &mut [u8], reader: Reader, model: Model) -> (u32, Reader) {
    let mut ctx = reader.beside(packet);
    let value = match model {
        Model::Bit(exponent) => ec_dec_bit_logp(&mut ctx, exponent) as u32,
        Model::Table(entries, scale) => ec_dec_icdf(&mut ctx, entries, scale) as u32,
        Model::Number(total) => ec_dec_uint(&mut ctx, total),
        Model::Bits(bits) => ec_dec_bits(&mut ctx, bits),
    };
    (value, Reader::of_the_crate(&ctx))
}

//! libopus's reader: the static library's internal functions of celt/entdec.h.

use super::Ask;
use crate::models::Model;
use crate::state::{EcCtx, Reader};

extern "C" {
    fn ec_dec_init(ctx: *mut EcCtx<u32>, buf: *mut u8, storage: u32);
    fn ec_dec_bit_logp(ctx: *mut EcCtx<u32>, logp: u32) -> i32;
    fn ec_dec_icdf(ctx: *mut EcCtx<u32>, icdf: *const u8, ftb: u32) -> i32;
    fn ec_dec_uint(ctx: *mut EcCtx<u32>, ft: u32) -> u32;
    fn ec_dec_bits(ctx: *mut EcCtx<u32>, bits: u32) -> u32;
}

/// The value and state after a call that document 01 accepts.
pub fn read(packet: &mut [u8], reader: Reader, ask: Ask) -> (u32, Reader) {
    let mut ctx = EcCtx::beside(packet, reader);
    let this = &mut ctx;
    // SAFETY: the buffer is lent for the call; a sound reader's offsets lie in it, and the table ends
    // in 0, where the search ends.
    let value = unsafe {
        match ask {
            Ask::Open => {
                ec_dec_init(this, packet.as_mut_ptr(), packet.len() as u32);
                0
            }
            Ask::Account => panic!("libopus has no function for it"),
            Ask::Read(Model::Bit(exponent)) => ec_dec_bit_logp(this, exponent) as u32,
            Ask::Read(Model::Table(table, scale)) => {
                ec_dec_icdf(this, table.as_ptr(), scale) as u32
            }
            Ask::Read(Model::Number(total)) => ec_dec_uint(this, total),
            Ask::Read(Model::Bits(bits)) => ec_dec_bits(this, bits),
        }
    };
    (value, ctx.fields)
}

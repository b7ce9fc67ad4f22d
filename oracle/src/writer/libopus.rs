//! libopus's writer: the static library's internal functions of celt/entenc.h.

use super::Ask;
use crate::models::Model;
use crate::state::{EcCtx, Writer};

extern "C" {
    fn ec_enc_init(ctx: *mut EcCtx<i32>, buf: *mut u8, size: u32);
    fn ec_enc_bit_logp(ctx: *mut EcCtx<i32>, val: i32, logp: u32);
    fn ec_enc_icdf(ctx: *mut EcCtx<i32>, s: i32, icdf: *const u8, ftb: u32);
    fn ec_enc_uint(ctx: *mut EcCtx<i32>, fl: u32, ft: u32);
    fn ec_enc_bits(ctx: *mut EcCtx<i32>, fl: u32, bits: u32);
    fn ec_enc_done(ctx: *mut EcCtx<i32>);
}

/// The state after a call that document 01 accepts.
pub fn write(buffer: &mut [u8], writer: Writer, ask: Ask) -> Writer {
    let mut ctx = EcCtx::beside(buffer, writer);
    let this = &mut ctx;
    // SAFETY: the buffer is lent for the call; a sound writer's offsets lie in it, and the symbol is
    // one of the table.
    unsafe {
        match ask {
            Ask::Open => ec_enc_init(this, buffer.as_mut_ptr(), buffer.len() as u32),
            Ask::Account => panic!("libopus has no function for it"),
            Ask::Write(Model::Bit(exponent), bit) => ec_enc_bit_logp(this, bit as i32, exponent),
            Ask::Write(Model::Table(table, scale), symbol) => {
                ec_enc_icdf(this, symbol as i32, table.as_ptr(), scale)
            }
            Ask::Write(Model::Number(total), number) => ec_enc_uint(this, number, total),
            Ask::Write(Model::Bits(bits), raw) => ec_enc_bits(this, raw, bits),
            Ask::Done { .. } => ec_enc_done(this),
        }
    }
    ctx.fields
}

//! The blocks of a frame as document 01's writer codes them, and writing them by the pieces of the crate
//! or of libopus.

use super::{Call, Levelled};
use crate::celt::entcode::ec_ctx;
use crate::celt::entenc::ec_enc_icdf;
use crate::silk::code_signs::silk_encode_signs;
use crate::silk::shell_coder::silk_shell_encoder;
use crate::silk::tables_other::silk_lsb_iCDF;
use crate::silk::tables_pulses_per_block::{silk_pulses_per_block_iCDF, silk_rate_levels_iCDF};
use crate::state::Writer;

// ---- document 01, "Pulses"

/// A block at a shift.
pub struct Block<'a> {
    pub pulses: &'a [i16],
    pub shift: usize,
    pub count: u32,
}

pub fn magnitude(pulse: i16) -> u32 {
    pulse.unsigned_abs().into()
}

impl<'a> Block<'a> {
    fn at(pulses: &'a [i16], shift: usize) -> Self {
        Block {
            pulses,
            shift,
            count: pulses.iter().map(|&pulse| magnitude(pulse) >> shift).sum(),
        }
    }

    /// The symbols of the count, each with its row.
    fn counts(&self, level: usize) -> impl Iterator<Item = (u32, &'static [u8])> {
        let (shift, count) = (self.shift, self.count);
        (0..=shift).map(move |lows| {
            let row: &[u8] = match lows {
                0 => &silk_pulses_per_block_iCDF[level],
                // "After ten, row 9 is entered one place later."
                10 => &silk_pulses_per_block_iCDF[9][1..],
                _ => &silk_pulses_per_block_iCDF[9],
            };
            (if lows < shift { 17 } else { count }, row)
        })
    }

    /// The low bits, of each pulse the highest first.
    fn lows(&self) -> impl Iterator<Item = u32> + '_ {
        let bits = |&pulse| {
            let lows = (0..self.shift).rev();
            lows.map(move |low| magnitude(pulse) >> low & 1)
        };
        self.pulses.iter().flat_map(bits)
    }
}

/// "Each block's smallest shift from 0 to 10 at which the shifted magnitudes total at most 16"; none
/// where a block has none. That every symbol has a probability adds nothing: in all rows each does,
/// which `tables::hold_all` checks.
pub fn shifts(pulses: &[i16]) -> Option<Vec<usize>> {
    let fits = |block: &[i16], shift| Block::at(block, shift).count <= 16;
    let smallest = |block| (0..=10).find(|&shift| fits(block, shift));
    pulses.chunks(16).map(smallest).collect()
}

pub fn blocks<'a>(pulses: &'a [i16], shifts: &[usize]) -> Vec<Block<'a>> {
    let blocks = pulses.chunks(16).zip(shifts);
    blocks
        .map(|(pulses, &shift)| Block::at(pulses, shift))
        .collect()
}

// ---- the same by the pieces of the crate or of libopus

/// What writing pulses is made of.
pub trait Pieces {
    fn symbol(&mut self, symbol: u32, row: &[u8]);
    fn splits(&mut self, shifted: &[i32; 16]);
    /// Of each pulse -1, 0 or 1; of each block the count, and its low bits times 32.
    fn signs(&mut self, call: &Call, signs: &[i8], sums: &[i32]);
}

impl Pieces for ec_ctx<'_> {
    fn symbol(&mut self, symbol: u32, row: &[u8]) {
        ec_enc_icdf(self, symbol as i32, row, 8);
    }

    fn splits(&mut self, shifted: &[i32; 16]) {
        silk_shell_encoder(self, shifted);
    }

    fn signs(&mut self, call: &Call, signs: &[i8], sums: &[i32]) {
        let (signal, offset) = (call.signal_type as i32, call.offset_type as i32);
        silk_encode_signs(self, signs, call.size.length(), signal, offset, sums);
    }
}

/// RFC 6716, section 4.2.7.8: the rate level, all counts, all splits, all low bits, all signs; each
/// block at its shift.
pub fn write(given: &Levelled, shifts: &[usize], to: &mut impl Pieces) {
    let (call, level) = (&given.call, given.rate_level as usize);
    let blocks = blocks(&call.pulses, shifts);
    let levels = &silk_rate_levels_iCDF[call.signal_type as usize >> 1];
    to.symbol(given.rate_level, levels);
    for (symbol, row) in blocks.iter().flat_map(|block| block.counts(level)) {
        to.symbol(symbol, row);
    }
    for block in blocks.iter().filter(|block| block.count > 0) {
        let shifted = |i: usize| (magnitude(block.pulses[i]) >> block.shift) as i32;
        to.splits(&std::array::from_fn(shifted));
    }
    for low in blocks.iter().flat_map(Block::lows) {
        to.symbol(low, &silk_lsb_iCDF);
    }
    let signs: Vec<i8> = call.pulses.iter().map(|p| p.signum() as i8).collect();
    let sum = |block: &Block| block.count as i32 | (block.shift << 5) as i32;
    let sums: Vec<i32> = blocks.iter().map(sum).collect();
    to.signs(call, &signs, &sums);
}

/// The crate's writing, by its pieces.
pub fn by_the_crate(
    given: &Levelled,
    shifts: &[usize],
    buffer: &mut [u8],
    writer: Writer,
) -> Writer {
    let mut ctx = writer.beside(buffer);
    write(given, shifts, &mut ctx);
    Writer::of_the_crate(&ctx)
}

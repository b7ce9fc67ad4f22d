//! Sound writers, and writers that break one rule of document 01.

use crate::domain::LONGEST_RUN;
use crate::models::Model;
use crate::rng::Rng;
use crate::state::Writer;
use crate::states::{self, Break};

/// Each field at random in its range or at one of its ends; in half of the cases no byte is free.
pub fn sound(rng: &mut Rng, length: usize) -> Writer {
    let state: Writer = states::sound(rng, length);
    let front = rng.or_end(0, length as u32);
    let room = length as u32 - front;
    Writer {
        end_offs: match rng.between(0, 1) {
            0 => room,
            _ => rng.or_end(0, room),
        },
        offs: front,
        val: rng.or_end(0, u32::MAX - state.rng),
        ext: run(rng, state.nbits_total),
        rem: rng.or_end(0, 256) as i32 - 1,
        error: -i32::from(rng.one_in(4)),
        ..state
    }
}

/// A long run takes its time, so most are short; the longest that writing can come to is an end.
fn run(rng: &mut Rng, total: u32) -> u32 {
    match rng.between(0, 4095) {
        0 => rng.or_end(0, LONGEST_RUN),
        1 => (total - 33) / 8 % (LONGEST_RUN + 1),
        2..=127 => rng.between(0, 1300),
        _ => rng.pick(&[0, 0, 0, 1, 1, 2, 3, 9]),
    }
}

/// Sets the value so that the symbol's part begins where a digit ends, or one beside it.
pub fn at_digit(rng: &mut Rng, writer: &mut Writer, model: Model, value: u32) {
    let start = i64::from(model.start(writer.rng, value));
    let digit = rng.pick(&[1, 128, 254, 255, 256, 257, 509, 510, 511]);
    let below = rng.pick(&[0, 8, 16]);
    let border = (digit << 23 >> below) + i64::from(rng.between(0, 2)) - 1;
    let val = (border - start).clamp(0, (u32::MAX - writer.rng).into());
    writer.val = val as u32;
}

const OWN_BREAKS: [Break<i32>; 19] = [
    |w| w.val = u32::MAX - w.rng + 1,
    |w| w.val = u32::MAX - w.rng + 2,
    |w| w.val = u32::MAX,
    |w| w.offs = w.storage - w.end_offs + 1,
    |w| w.offs = u32::MAX - w.end_offs,
    |w| w.end_offs = w.storage - w.offs + 1,
    |w| w.end_offs = u32::MAX - w.offs,
    // Offsets whose sum is at most the length modulo 2^32.
    |w| (w.offs, w.end_offs) = (1 << 31, 1 << 31),
    |w| (w.offs, w.end_offs) = (u32::MAX, w.storage + 1),
    |w| w.rem = -2,
    |w| w.rem = i32::MIN,
    |w| w.rem = 256,
    |w| w.rem = i32::MAX,
    |w| w.error = 1,
    |w| w.error = -2,
    |w| w.error = i32::MIN,
    |w| w.error = i32::MAX,
    |w| w.ext = LONGEST_RUN + 1,
    |w| w.ext = u32::MAX,
];

pub fn breaks() -> impl Iterator<Item = Break<i32>> {
    states::breaks().into_iter().chain(OWN_BREAKS)
}

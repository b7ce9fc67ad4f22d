//! What sound readers and sound writers have in common, and breaking one rule of it.

use crate::domain::{LAST_TOTAL, SOUND_TOTALS};
use crate::rng::Rng;
use crate::state::State;

/// Length, window, total and range, each at random in its range or at one of its ends; else zeros.
pub fn sound<T: Default>(rng: &mut Rng, length: usize) -> State<T> {
    let bits = rng.or_end(0, 32);
    State {
        storage: length as u32,
        end_window: rng.or_end(0, ((1_u64 << bits) - 1) as u32),
        nend_bits: bits,
        nbits_total: match rng.between(0, 15) {
            0 => rng.or_end(LAST_TOTAL + 1, *SOUND_TOTALS.end()),
            _ => rng.or_end(*SOUND_TOTALS.start(), LAST_TOTAL),
        },
        rng: match rng.between(0, 2) {
            0 => 1 << rng.between(24, 31),
            _ => rng.or_end((1 << 23) + 1, 1 << 31),
        },
        ..State::default()
    }
}

/// Breaks one rule of a sound state, by one or by much.
pub type Break<T> = fn(&mut State<T>);

pub fn breaks<T: Default>() -> [Break<T>; 18] {
    [
        |s| s.storage += 1,
        |s| s.storage = s.storage.wrapping_sub(1),
        |s| s.storage = u32::MAX,
        // Value 0 goes with any range that is not 0.
        |s| (s.rng, s.val) = (0, 0),
        |s| (s.rng, s.val) = (1, 0),
        |s| (s.rng, s.val) = (1 << 23, 0),
        |s| (s.rng, s.val) = ((1 << 31) + 1, 0),
        |s| (s.rng, s.val) = (u32::MAX, 0),
        |s| s.nend_bits = 33,
        |s| s.nend_bits = 64,
        |s| s.nend_bits = u32::MAX,
        |s| (s.nend_bits, s.end_window) = (0, 1),
        |s| {
            s.nend_bits = s.nend_bits.min(31);
            s.end_window = 1 << s.nend_bits;
        },
        |s| (s.nend_bits, s.end_window) = (31, u32::MAX),
        |s| s.nbits_total = SOUND_TOTALS.start() - 1,
        |s| s.nbits_total = SOUND_TOTALS.end() + 1,
        |s| s.nbits_total = u32::MAX,
        |s| *s = State::default(),
    ]
}

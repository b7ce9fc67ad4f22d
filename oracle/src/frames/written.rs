//! Frames that the crate's writers make, for recorded lists.

use super::indices::{self, Kept, Record};
use super::pulses::{self, Levelled};
use super::Size;
use crate::compare::Sides;
use crate::domain::{pulses_of, LONGEST};
use crate::rng::Rng;
use crate::state::{State, Writer};
use crate::writer::{Ask, Writing};

/// What the crate's finish leaves of a fresh writer's work.
pub fn packet(write: impl FnOnce(&mut [u8], Writer) -> Writer) -> Vec<u8> {
    let mut buffer = vec![0; LONGEST];
    let fresh = Writing::unopus(&mut buffer, State::default(), Ask::Open).state;
    let writer = write(&mut buffer, fresh);
    let done = Writing::unopus(&mut buffer, writer, Ask::Done { again: false });
    buffer.truncate(done.state.offs as usize);
    buffer
}

/// A frame of this type after a voiced one, whose record can be written.
pub fn any_frame(rng: &mut Rng, size: Size, mode: u32, signal_type: i8) -> indices::Call {
    let mut call = indices::Call {
        size,
        active: u32::from(signal_type > 0),
        mode,
        record: Record::any(rng),
        kept: Kept {
            prev_type: 2,
            prev_lag: 50,
        },
    };
    call.fit(rng);
    while call.record.signal_type != signal_type {
        call.fit(rng);
    }
    call
}

/// Steps at their ends and beside them, each with a residual where those are extended.
pub const RELATIVE: [(i16, i8); 6] = [(-9, -4), (-8, -10), (-1, -9), (0, 4), (11, 9), (12, 10)];

/// A voiced frame whose lag lies by this step from the one before.
pub fn relative(rng: &mut Rng, size: Size, step: i16, residual: i8) -> indices::Call {
    let mut call = any_frame(rng, size, 2, 2);
    call.record.nlsf[1..].fill(residual);
    call.record.lag = call.kept.prev_lag + step;
    call
}

/// 15 blocks with their shifts: 0 to 10 at a count of 16, and four at a count of 0.
pub fn every_shift(rate_level: u32) -> (Levelled, Vec<usize>) {
    let size = Size {
        khz: 12,
        subframes: 4,
    };
    let mut pulses = vec![0; pulses_of(size)];
    let shifts: Vec<usize> = (0..=10).chain([1, 4, 9, 10]).collect();
    for (number, (block, shift)) in pulses.chunks_mut(16).zip(&shifts).enumerate() {
        let lows = (1 << shift) - 1;
        block[number] = match number {
            0..=10 => -(4 << shift) - lows,
            _ => lows,
        };
        if number <= 10 {
            block[number + 1] = 12 << shift;
        }
    }
    let given = Levelled {
        call: pulses::Call {
            size,
            signal_type: rate_level % 3,
            offset_type: rate_level % 2,
            pulses,
        },
        rate_level,
    };
    (given, shifts)
}

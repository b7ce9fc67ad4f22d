//! What an input says, byte after byte.

use oracle::domain::pulses_of;
use oracle::frames::indices::{Call, Kept, Record};
use oracle::frames::Size;
use oracle::rng::Rng;
use std::ops::RangeInclusive;

/// The bytes that are left; zeros behind them.
pub struct Source<'a>(&'a [u8]);

impl<'a> Source<'a> {
    pub fn new(input: &'a [u8]) -> Self {
        Source(input)
    }

    pub fn byte(&mut self) -> u8 {
        match self.0.split_first() {
            Some((&byte, rest)) => {
                self.0 = rest;
                byte
            }
            None => 0,
        }
    }

    pub fn word(&mut self) -> i16 {
        i16::from_be_bytes([self.byte(), self.byte()])
    }

    pub fn rest(&self) -> &'a [u8] {
        self.0
    }

    /// Most often one of these, else any of 8 bits.
    pub fn one_of(&mut self, good: &[u32]) -> u32 {
        let byte = self.byte();
        match good.get(byte as usize % (good.len() + 1)) {
            Some(&number) => number,
            None => byte.into(),
        }
    }

    /// Most often of the range, else any of 16 bits.
    fn within(&mut self, range: RangeInclusive<i16>) -> i16 {
        match self.byte() {
            u8::MAX => self.word(),
            past => range.start() + i16::from(past) % (range.end() - range.start() + 1),
        }
    }

    /// The numbers of a call on side indices.
    pub fn numbers(&mut self) -> Call {
        Call {
            size: Size {
                khz: self.one_of(&[8, 12, 16]),
                subframes: self.one_of(&[2, 4]),
            },
            active: self.one_of(&[0, 1]),
            mode: self.one_of(&[0, 1, 2]),
            record: Record::default(),
            kept: Kept {
                prev_type: self.one_of(&[0, 1, 2]),
                prev_lag: self.word(),
            },
        }
    }

    /// The fields of its record, most often such as can be written; noise where the frame codes none.
    pub fn fields(&mut self, call: &mut Call) {
        call.record = Record::any(&mut Rng::new(self.byte().into()));
        call.set_each(|range| self.within(range));
    }

    /// As many pulses as a frame of the size has, at times one more or one less: for each block a byte that
    /// says how far its bytes are shifted, and none where it is 0.
    pub fn pulses(&mut self, size: Size) -> Vec<i16> {
        // A size that is refused has no need of more than the longest frame.
        let frame = pulses_of(size).min(320);
        let length = match self.byte() {
            u8::MAX => frame + 1,
            254 => frame.saturating_sub(1),
            _ => frame,
        };
        let mut pulses = vec![0; length];
        for block in pulses.chunks_mut(16) {
            if let Some(shift) = self.byte().checked_sub(1) {
                block.fill_with(|| i16::from(self.byte() as i8) << (shift % 12));
            }
        }
        pulses
    }
}

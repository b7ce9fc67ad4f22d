//! The pulses of a frame.

mod blocks;
pub mod crate_writer;
mod pulse_ways;
mod read;
mod write;

use super::indices::Record;
use super::{Change, Given, Size};
use crate::domain::pulses_of;

pub use blocks::{by_the_crate, shifts, write, Pieces};
pub use read::Read;
pub use write::{limit_blocks, Write};

/// What a call on pulses is given.
#[derive(Clone, Debug)]
pub struct Call {
    pub size: Size,
    pub signal_type: u32,
    pub offset_type: u32,
    pub pulses: Vec<i16>,
}

/// What writing pulses is given: the pulses, and the rate level.
#[derive(Clone, Debug)]
pub struct Levelled {
    pub call: Call,
    pub rate_level: u32,
}

impl Call {
    /// Behind these side indices, all pulses 0.
    pub fn behind(size: Size, record: &Record) -> Self {
        Call {
            size,
            signal_type: record.signal_type as u32,
            offset_type: record.offset_type as u32,
            pulses: vec![0; pulses_of(size)],
        }
    }
}

impl Given for Call {
    fn all() -> Vec<Call> {
        let mut all = Vec::new();
        for size in Size::all() {
            for signal_type in 0..3 {
                all.extend((0..2).map(|offset_type| Call {
                    size,
                    signal_type,
                    offset_type,
                    pulses: vec![0; pulses_of(size)],
                }));
            }
        }
        all
    }

    fn numbers(&self) -> [u32; 5] {
        let size = self.size;
        [
            size.khz,
            size.subframes,
            self.signal_type,
            self.offset_type,
            0,
        ]
    }

    fn size(&mut self) -> &mut Size {
        &mut self.size
    }

    fn outside() -> Vec<Change<Call>> {
        let changes: [fn(&mut Call); 9] = [
            |c| c.signal_type = 3,
            |c| c.signal_type = u32::MAX,
            |c| c.offset_type = 2,
            |c| c.offset_type = u32::MAX,
            |c| c.pulses.truncate(c.pulses.len() - 1),
            |c| c.pulses.push(-1),
            |c| c.pulses.clear(),
            // A frame of 120 pulses takes 128 places.
            |c| c.pulses.truncate(c.pulses.len() - 8),
            |c| {
                c.offset_type = 2;
                c.pulses.push(1);
            },
        ];
        changes.map(|change| Box::new(change) as _).into()
    }
}

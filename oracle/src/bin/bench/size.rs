//! The sizes of frames.

use oracle::frames;
use oracle::frames::indices::{Call, Kept, Record};

#[derive(Clone, Copy)]
pub struct Size {
    pub khz: u32,
    pub subframes: u32,
}

impl Size {
    pub fn all() -> impl Iterator<Item = Size> {
        let each = |khz| [2, 4].map(|subframes| Size { khz, subframes });
        [8, 12, 16].into_iter().flat_map(each)
    }

    pub fn name(self) -> String {
        format!("{} kHz, {} subframes", self.khz, self.subframes)
    }

    /// In samples.
    pub fn length(self) -> usize {
        (5 * self.khz * self.subframes) as usize
    }

    /// In pulses: blocks of 16.
    pub fn places(self) -> usize {
        self.length().next_multiple_of(16)
    }

    /// The call by which the crate's decoder and libopus's are set up.
    pub fn call(self) -> Call {
        Call {
            size: frames::Size {
                khz: self.khz,
                subframes: self.subframes,
            },
            active: 0,
            mode: 0,
            record: Record::default(),
            kept: Kept::default(),
        }
    }
}

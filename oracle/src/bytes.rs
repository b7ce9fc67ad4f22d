//! Packets and buffers, and what fills them.

use crate::domain::LONGEST;
use crate::rng::Rng;

/// Room for a packet or buffer, one byte longer than document 01 allows.
pub type Bytes = [u8; LONGEST + 1];

/// The lengths at which an answer changes, and one to either side.
pub const LENGTHS: [usize; 7] = [0, 1, 2, 3, LONGEST - 1, LONGEST, LONGEST + 1];

#[derive(Clone, Copy)]
pub enum Fill {
    Zeros,
    Ones,
    Random,
}

pub const FILLS: [Fill; 3] = [Fill::Zeros, Fill::Ones, Fill::Random];

pub fn fill(rng: &mut Rng, bytes: &mut [u8], fill: Fill) {
    match fill {
        Fill::Zeros => bytes.fill(0),
        Fill::Ones => bytes.fill(0xFF),
        Fill::Random => rng.fill(bytes),
    }
}

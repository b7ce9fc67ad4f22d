//! The calls on whole packets: ours beside a plain rewrite of RFC 6716, section 3, and beside libopus's.

mod calls;
mod crafted;
#[cfg(libopus)]
pub mod libopus;
pub mod ours;
mod reading;
#[cfg(libopus)]
mod real;
mod rewrite;
mod writing;

use crate::board::{Board, Score};
use crate::domain::LONGEST as LONGEST_FRAME;
use crate::hold::Extent;
use crate::report;
use crate::rng::Rng;
pub use reading::Reading;
use writing::Writing;

/// What writing is given besides the buffer.
#[derive(Clone, Copy)]
pub struct Call<'a> {
    pub config: u32,
    /// The bytes of all frames.
    pub frames: &'a [u8],
    pub sizes: &'a [u16],
    pub length: u32,
}

/// Ten packets read for each call of writing, and every short one.
pub fn hold(extent: &Extent, board: &mut Board) {
    let mut rng = Rng::new(extent.seed);
    let (mut reading, mut writing) = (Reading::default(), Writing::new(&mut rng));
    crafted::short(&mut reading);
    crafted::at_random(&mut reading, &mut rng, 10 * extent.cases);
    calls::put(&mut writing, &mut reading, &mut rng, extent.cases);
    #[cfg(libopus)]
    real::put(&mut reading, &mut rng);
    reading.settle(board);
    writing.settle(board);
}

/// How many calls were accepted, and refused with each of these.
fn answers(score: &Score, refusals: &[usize]) -> String {
    let refusals = refusals.iter().map(|&n| (n.to_string(), score.answered(n)));
    let refused = report::counts(refusals);
    format!("accepted {}, refused with {refused}", score.answered(0))
}

/// Sizes of frames at both ends, and on either side of 252, where a length takes two bytes, and of 256.
const SIZES: [u16; 7] = [0, 1, 251, 252, 255, 256, LONGEST_FRAME as u16];

fn any_size(rng: &mut Rng) -> u16 {
    match rng.between(0, 3) {
        0 => rng.pick(&SIZES),
        1 => rng.between(0, 3) as u16,
        2 => rng.between(0, 300) as u16,
        _ => rng.between(0, LONGEST_FRAME as u32) as u16,
    }
}

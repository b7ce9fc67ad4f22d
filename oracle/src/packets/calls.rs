//! Calls of writing: at random, and some whose sums pass 16 or 32 bits.

use super::reading::{Kind, Reading};
use super::rewrite::{self, most_frames, shortest, total, LONGEST};
use super::writing::Writing;
use super::{any_size, Call, LONGEST_FRAME};
use crate::rng::Rng;
use std::iter::{once, repeat_n};

const WRITTEN: Kind = ("written", &[0]);

/// As many sizes at random, at most: one more than 120 ms have of the shortest SILK frames.
const MOST_SIZES: usize = 13;

/// The buffer's length, and what a call is given; its frames are so many bytes of noise.
struct Given {
    room: usize,
    config: u32,
    sizes: Vec<u16>,
    bytes: usize,
    length: u32,
}

/// So many calls at random.
pub fn put(writing: &mut Writing, reading: &mut Reading, rng: &mut Rng, cases: u64) {
    reading.begin(WRITTEN);
    let mut noise = vec![0; MOST_SIZES * usize::from(u16::MAX) + 1];
    rng.fill(&mut noise);
    let at_random = (0..cases).map(|_| any(rng));
    for given in large_sums().into_iter().chain(at_random) {
        let call = Call {
            config: given.config,
            frames: &noise[..given.bytes],
            sizes: &given.sizes,
            length: given.length,
        };
        writing.put(given.room, &call, reading);
    }
}

fn any(rng: &mut Rng) -> Given {
    let config = match rng.between(0, 7) {
        0 => rng.between(0, 40),
        1 => rng.pick(&[12, 31, 32, u32::MAX]),
        _ => rng.between(0, 11),
    };
    let sizes = any_sizes(rng, config);
    let length = any_length(rng, shortest(&sizes) as u32);
    let all = total(&sizes);
    Given {
        room: any_room(rng, rewrite::length(&sizes, length)),
        config,
        bytes: match rng.between(0, 31) {
            0 => all + 1,
            1 => all.saturating_sub(1),
            _ => all,
        },
        sizes,
        length,
    }
}

fn any_sizes(rng: &mut Rng, config: u32) -> Vec<u16> {
    let most = match rng.one_in(4) {
        true => MOST_SIZES,
        false => most_frames(config).min(MOST_SIZES),
    };
    let count = rng.between(0, most as u32);
    let mut sizes = vec![any_size(rng); count as usize];
    if rng.one_in(2) {
        sizes.fill_with(|| any_size(rng));
    }
    if rng.one_in(16) {
        let large = rng.pick(&[LONGEST_FRAME as u16 + 1, u16::MAX]);
        sizes.pop();
        sizes.push(large);
    }
    sizes
}

/// None, one around the shortest, around a further length byte of padding, or around the longest, or any.
fn any_length(rng: &mut Rng, shortest: u32) -> u32 {
    match rng.between(0, 10) {
        0..=2 => 0,
        3 => shortest - 1,
        4..=6 => shortest + rng.between(0, 3),
        7 | 8 => shortest + 255 * rng.or_end(1, 64) + rng.between(0, 4) - 2,
        9 => LONGEST as u32 + rng.between(0, 2) - 1,
        _ => rng.any_width(),
    }
}

/// Just enough for the packet, or more, or not enough, or any.
fn any_room(rng: &mut Rng, packet: usize) -> usize {
    match rng.between(0, 9) {
        0..=4 => packet.min(LONGEST),
        5 | 6 => (packet + rng.between(1, 40) as usize).min(LONGEST),
        7 => (packet - 1).min(LONGEST),
        8 => rng.pick(&[LONGEST, LONGEST + 1]),
        _ => rng.between(0, LONGEST as u32 + 1) as usize,
    }
}

/// Wrapped, the sum of the sizes would be the number of bytes, the shortest length would fit, or the
/// frames would not last too long.
fn large_sums() -> Vec<Given> {
    let given = |sizes: Vec<u16>, bytes| Given {
        room: LONGEST,
        config: 3,
        sizes,
        bytes,
        length: 0,
    };
    let up_to = |sum: usize, more: usize| {
        let full = repeat_n(u16::MAX, (sum - 1) / usize::from(u16::MAX));
        full.chain(once(1 + more as u16)).collect()
    };
    vec![
        given(up_to(1 << 16, 5), 5),
        given(up_to(1 << 32, 5), 5),
        given(up_to(1 << 16, 5), (1 << 16) + 5),
        given(repeat_n(0, 1 << 16).chain(once(1)).collect(), 1),
        given(vec![0; (1 << 8) + 1], 0),
        given(vec![0; (1 << 16) + 1], 0),
        given(vec![0; (1 << 32) / 600 + 1], 0),
    ]
}

//! Packets made up: short ones, all; at random, around every rule of section 3.

use super::reading::{Kind, Reading};
use super::rewrite::{most_frames, push_length, total, LONGEST};
use super::{any_size, LONGEST_FRAME, SIZES};
use crate::rng::Rng;

/// Every packet of at most two bytes, and every one of three with code 3.
pub fn short(reading: &mut Reading) {
    reading.begin(("of at most 3 bytes", &[0, 10, 11]));
    reading.put(&[]);
    for number in 0..1_u32 << 24 {
        let [_, toc, second, third] = number.to_be_bytes();
        if toc % 4 == 3 {
            reading.put(&[toc, second, third]);
        }
        if third == 0 {
            reading.put(&[toc, second]);
        }
        if (second, third) == (0, 0) {
            reading.put(&[toc]);
        }
    }
}

/// So many packets, as many of each kind.
pub fn at_random(reading: &mut Reading, rng: &mut Rng, cases: u64) {
    let mut noise = vec![0; 1 << 17];
    rng.fill(&mut noise);
    let cases = cases.div_ceil(KINDS.len() as u64);
    for &(kind, make) in KINDS {
        reading.begin(kind);
        put_made(reading, rng, &mut noise, make, cases);
    }
}

/// The heads alone are made anew: what stands behind them matters to no reader.
fn put_made(reading: &mut Reading, rng: &mut Rng, noise: &mut [u8], make: Make, cases: u64) {
    for _ in 0..cases {
        let (head, length) = make(rng);
        noise[..head.len()].copy_from_slice(&head);
        reading.put(&noise[..length]);
    }
}

/// The bytes in front of a packet's frames, and the length of all.
type Made = (Vec<u8>, usize);

type Make = fn(&mut Rng) -> Made;

const KINDS: &[(Kind, Make)] = &[
    (("random bytes", &[0, 10, 11]), random),
    (("well laid out", &[0, 11]), well_laid_out),
    (("sizes at limits", &[0, 1, 10, 11]), at_limits),
    (("no equal shares", &[10]), no_equal_shares),
    (("last frame empty", &[0, 11]), last_empty),
    (("lengths past the end", &[10]), lengths_past_the_end),
    (("cut before the frames", &[10]), cut_before_the_frames),
    (("any count", &[0, 10, 11]), any_count),
    (("padding to the end", &[0, 11]), padding_to_the_end),
    (("padding past the end", &[10]), padding_past_the_end),
    (("around 16,384 bytes", &[0, 1, 11]), longest),
    (("changed", &[0, 10, 11]), changed),
];

/// What a packet is made of.
struct Draft {
    config: u32,
    stereo: bool,
    code: u8,
    /// The lengths are written.
    varied: bool,
    sizes: Vec<u16>,
    /// So many length bytes of 255, and the last one.
    padding: Option<(usize, u8)>,
}

impl Draft {
    /// Keeps every rule, in less than 16,384 bytes; most often of SILK in mono.
    fn any(rng: &mut Rng, code: u8) -> Self {
        let last = rng.pick(&[11, 11, 11, 31]);
        let config = rng.between(0, last);
        let count = match code {
            0 => 1,
            1 | 2 => 2,
            _ => rng.or_end(1, most_frames(config) as u32),
        };
        let most = 15_000 / count as u16;
        let mut draft = Draft {
            config,
            stereo: rng.one_in(16),
            code,
            varied: code == 2 || (code == 3 && rng.one_in(2)),
            sizes: vec![0; count as usize],
            padding: (code == 3 && rng.one_in(2)).then(|| chain(rng, 2)),
        };
        draft.size_all(|| any_size(rng).min(most));
        draft
    }

    fn size_all(&mut self, mut size: impl FnMut() -> u16) {
        self.sizes.fill_with(&mut size);
        if !self.varied {
            self.sizes.fill(size());
        }
    }

    /// The last frame, and with it all others if they are equal.
    fn size_last(&mut self, size: u16) {
        let first = if self.varied { self.sizes.len() - 1 } else { 0 };
        self.sizes[first..].fill(size);
    }

    fn head(&self) -> Vec<u8> {
        let mut head = vec![8 * self.config as u8 + 4 * u8::from(self.stereo) + self.code];
        if self.code == 3 {
            let bits = 128 * u8::from(self.varied) + 64 * u8::from(self.padding.is_some());
            head.push(bits + self.sizes.len() as u8);
        }
        if let Some((full, last)) = self.padding {
            head.resize(head.len() + full, 255);
            head.push(last);
        }
        if let (true, Some((_, firsts))) = (self.varied, self.sizes.split_last()) {
            firsts.iter().for_each(|&size| push_length(&mut head, size));
        }
        head
    }

    /// The padding at the packet's end.
    fn tail(&self) -> usize {
        let counted = |(full, last)| 254 * full + usize::from(last);
        self.padding.map_or(0, counted)
    }

    fn made(&self) -> Made {
        let head = self.head();
        let length = head.len() + total(&self.sizes) + self.tail();
        (head, length)
    }
}

/// The length bytes of padding, at most so many of them 255.
fn chain(rng: &mut Rng, most: u32) -> (usize, u8) {
    (rng.or_end(0, most) as usize, rng.or_end(0, 254) as u8)
}

fn any_code(rng: &mut Rng) -> u8 {
    rng.between(0, 3) as u8
}

fn random(rng: &mut Rng) -> Made {
    let mut head = vec![0; 40];
    rng.fill(&mut head);
    let most = rng.pick(&[4, 40, 40, 3000]);
    (head, rng.between(0, most) as usize)
}

fn well_laid_out(rng: &mut Rng) -> Made {
    let code = any_code(rng);
    Draft::any(rng, code).made()
}

/// R2: a length that is not written can say 1,276 too.
fn at_limits(rng: &mut Rng) -> Made {
    let code = any_code(rng);
    let mut draft = Draft::any(rng, code);
    draft.size_all(|| rng.pick(&SIZES));
    if rng.one_in(4) {
        draft.size_last(LONGEST_FRAME as u16 + 1);
    }
    draft.made()
}

/// R3 and R6.
fn no_equal_shares(rng: &mut Rng) -> Made {
    let code = rng.pick(&[1, 3]);
    let mut draft = Draft::any(rng, code);
    draft.varied = false;
    let count = draft.sizes.len().max(2);
    draft.sizes = vec![draft.sizes[0]; count];
    let (head, length) = draft.made();
    (head, length + rng.between(1, count as u32 - 1) as usize)
}

fn last_empty(rng: &mut Rng) -> Made {
    let code = rng.pick(&[2, 3]);
    let mut draft = Draft::any(rng, code);
    draft.varied = true;
    draft.size_last(0);
    draft.made()
}

/// R4 and R7.
fn lengths_past_the_end(rng: &mut Rng) -> Made {
    let (head, length) = last_empty(rng);
    (head, length - 1)
}

/// R1, and lengths cut short, of frames and of padding.
fn cut_before_the_frames(rng: &mut Rng) -> Made {
    let (head, _) = well_laid_out(rng);
    let length = rng.between(0, head.len() as u32 - 1);
    (head, length as usize)
}

/// R5.
fn any_count(rng: &mut Rng) -> Made {
    let mut draft = Draft::any(rng, 3);
    draft.config = rng.between(0, 31);
    draft.sizes = vec![0; rng.between(0, 63) as usize];
    draft.size_all(|| rng.between(0, 1) as u16);
    draft.made()
}

/// RFC 8251, section 4.
fn all_padding(rng: &mut Rng) -> Draft {
    let mut draft = Draft::any(rng, 3);
    draft.padding = Some(chain(rng, 63));
    draft.sizes.fill(0);
    draft
}

fn padding_to_the_end(rng: &mut Rng) -> Made {
    all_padding(rng).made()
}

fn padding_past_the_end(rng: &mut Rng) -> Made {
    let draft = all_padding(rng);
    let (head, length) = draft.made();
    let less = rng.or_end(1, draft.tail().max(1) as u32);
    (head, length - less as usize)
}

fn longest(rng: &mut Rng) -> Made {
    let mut draft = Draft {
        padding: None,
        ..Draft::any(rng, 3)
    };
    let (_, bare) = draft.made();
    let length = rng.pick(&[LONGEST - 1, LONGEST, LONGEST + 1]);
    // The last length byte is counted besides.
    let padding = length - bare - 1;
    draft.padding = Some((padding / 255, (padding % 255) as u8));
    draft.made()
}

/// A byte is changed; or bytes are cut off, or added.
fn changed(rng: &mut Rng) -> Made {
    let (mut head, length) = well_laid_out(rng);
    match rng.between(0, 2) {
        0 => {
            let place = rng.between(0, head.len() as u32 - 1);
            head[place as usize] ^= rng.between(1, 255) as u8;
            (head, length)
        }
        1 => (head, rng.between(0, length as u32 - 1) as usize),
        _ => (head, length + rng.between(1, 3) as usize),
    }
}

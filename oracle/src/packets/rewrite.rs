//! Whole packets read and written by RFC 6716, section 3, with RFC 8251, section 4, for the padding: an
//! ordinary parser and packer, which are there without libopus too.

use super::ours::{Packet, Written};
use super::Call;
use crate::domain::{first, LONGEST as LONGEST_FRAME};

/// A packet or buffer of more bytes is refused.
pub const LONGEST: usize = 16_384;

/// 120 ms, in tenths of a millisecond.
const LONGEST_DURATION: usize = 1200;

/// As many of 2.5 ms last 120 ms.
pub const MOST_FRAMES: usize = 48;

/// The last configuration of SILK alone.
pub const LAST_SILK: u32 = 11;

/// Of a frame, in tenths of a millisecond; there is none above configuration 31.
fn duration(config: u32) -> usize {
    let place = config as usize % 4;
    match config {
        0..=11 => [100, 200, 400, 600][place],
        12..=15 => [100, 200][place % 2],
        16..=31 => [25, 50, 100, 200][place],
        _ => 0,
    }
}

/// As many frames of a configuration as last 120 ms.
pub fn most_frames(config: u32) -> usize {
    LONGEST_DURATION
        .checked_div(duration(config))
        .unwrap_or(usize::MAX)
}

/// The configuration, and whether there are two channels.
pub fn channels(toc: u8) -> (u32, bool) {
    (u32::from(toc / 8), toc / 4 % 2 == 1)
}

// ---- reading

pub fn read(packet: &[u8]) -> Packet {
    if packet.len() > LONGEST {
        return Packet::refused(1);
    }
    let Some(layout) = layout(packet) else {
        return Packet::refused(10);
    };
    match channels(packet[0]) {
        (config @ 0..=LAST_SILK, false) => layout.answer(config, packet[0] % 4),
        _ => Packet::refused(11),
    }
}

/// Where the frames of a packet stand.
struct Layout {
    start: usize,
    sizes: [usize; MOST_FRAMES],
    count: usize,
    padding: usize,
}

impl Layout {
    fn answer(&self, config: u32, code: u8) -> Packet {
        let mut answer = Packet {
            config,
            arrangement: code.into(),
            count: self.count as u32,
            padding: self.padding as u32,
            ..Packet::default()
        };
        let mut at = self.start;
        for (place, &size) in self.sizes[..self.count].iter().enumerate() {
            answer.start[place] = at as u16;
            answer.size[place] = size as u16;
            at += size;
        }
        answer
    }
}

/// Nothing where a rule of section 3 is broken.
fn layout(packet: &[u8]) -> Option<Layout> {
    let mut rest = Rest {
        packet,
        start: 0,
        end: packet.len(),
    };
    // R1.
    let toc = rest.byte()?;
    let (varied, padded, count) = match toc % 4 {
        0 => (false, false, 1),
        1 => (false, false, 2),
        2 => (true, false, 2),
        _ => {
            let byte = rest.byte()?;
            (byte & 128 != 0, byte & 64 != 0, byte & 63)
        }
    };
    // R5: two frames never last more than 120 ms, so it is code 3 that can break it.
    if count == 0 || count > most_frames(toc as u32 / 8) {
        return None;
    }
    let padding = if padded { rest.padding()? } else { 0 };
    let mut sizes = [0; MOST_FRAMES];
    if varied {
        rest.lengths(&mut sizes[..count])?;
    } else {
        rest.shares(&mut sizes[..count])?;
    }
    // R2.
    let short = sizes.iter().all(|&size| size <= LONGEST_FRAME);
    short.then_some(Layout {
        start: rest.start,
        sizes,
        count,
        padding,
    })
}

/// What is not yet taken of a packet.
struct Rest<'a> {
    packet: &'a [u8],
    start: usize,
    end: usize,
}

impl Rest<'_> {
    fn len(&self) -> usize {
        self.end - self.start
    }

    fn byte(&mut self) -> Option<usize> {
        let byte = self.packet[self.start..self.end].first()?;
        self.start += 1;
        Some(usize::from(*byte))
    }

    /// The bytes that padding takes at either end.
    fn padding(&mut self) -> Option<usize> {
        let before = self.len();
        loop {
            let byte = self.byte()?;
            let end = self.end.checked_sub(byte.min(254))?;
            self.end = Some(end).filter(|&end| end >= self.start)?;
            if byte < 255 {
                return Some(before - self.len());
            }
        }
    }

    fn length(&mut self) -> Option<usize> {
        match self.byte()? {
            first @ 0..252 => Some(first),
            first => Some(first + 4 * self.byte()?),
        }
    }

    /// R4 and R7: a length for each frame but the last, which has what they leave.
    fn lengths(&mut self, sizes: &mut [usize]) -> Option<()> {
        let (last, firsts) = sizes.split_last_mut()?;
        for size in firsts.iter_mut() {
            *size = self.length()?;
        }
        *last = self.len().checked_sub(firsts.iter().sum())?;
        Some(())
    }

    /// R3 and R6.
    fn shares(&self, sizes: &mut [usize]) -> Option<()> {
        let share = self.len() / sizes.len();
        sizes.fill(share);
        (share * sizes.len() == self.len()).then_some(())
    }
}

// ---- writing

pub fn write(buffer: &mut [u8], call: &Call) -> Written {
    match refusal(buffer.len(), call) {
        0 => {
            let packet = packet(call);
            buffer[..packet.len()].copy_from_slice(&packet);
            Written {
                refusal: 0,
                length: packet.len() as u32,
            }
        }
        refusal => Written { refusal, length: 0 },
    }
}

/// The number that refuses writing into so many bytes, or 0.
pub fn refusal(room: usize, call: &Call) -> u32 {
    let sizes = call.sizes;
    let long = sizes.iter().any(|&size| usize::from(size) > LONGEST_FRAME);
    let most = most_frames(call.config);
    let (length, shortest) = (length(sizes, call.length), shortest(sizes));
    first(&[
        (1, room > LONGEST),
        (6, total(sizes) != call.frames.len()),
        (8, !(shortest..=room).contains(&length)),
        (10, long || sizes.is_empty() || sizes.len() > most),
        (11, call.config > LAST_SILK),
    ])
}

/// The bytes of all frames.
pub fn total(sizes: &[u16]) -> usize {
    sizes.iter().map(|&size| usize::from(size)).sum()
}

/// Of the shortest packet.
pub fn shortest(sizes: &[u16]) -> usize {
    match code(sizes) {
        3 => bare(sizes),
        _ => bare(sizes) - 1,
    }
}

/// Of the packet that is asked for, the shortest by 0.
pub fn length(sizes: &[u16], asked: u32) -> usize {
    match asked {
        0 => shortest(sizes),
        _ => asked as usize,
    }
}

/// Of the shortest packet.
fn code(sizes: &[u16]) -> u8 {
    match sizes {
        [_] => 0,
        [first, second] if first == second => 1,
        [_, _] => 2,
        _ => 3,
    }
}

/// Of a packet of code 3 without padding.
pub fn bare(sizes: &[u16]) -> usize {
    let written = written(sizes).iter();
    2 + written.map(|&size| width(size)).sum::<usize>() + total(sizes)
}

/// The bytes that a frame's length takes.
pub fn width(size: u16) -> usize {
    match size {
        0..252 => 1,
        _ => 2,
    }
}

/// The sizes that stand in the packet: all but the last, unless all are equal.
pub fn written(sizes: &[u16]) -> &[u16] {
    match sizes.split_last() {
        Some((last, firsts)) if firsts.iter().any(|size| size != last) => firsts,
        _ => &[],
    }
}

/// A packet that no number refuses.
fn packet(call: &Call) -> Vec<u8> {
    let sizes = call.sizes;
    let (length, written) = (length(sizes, call.length), written(sizes));
    let code = match length > shortest(sizes) {
        true => 3,
        false => code(sizes),
    };
    let mut packet = vec![(8 * call.config) as u8 + code];
    if code == 3 {
        let padding = padding_lengths(length - bare(sizes));
        let bits = 128 * u8::from(!written.is_empty()) + 64 * u8::from(!padding.is_empty());
        packet.push(bits + sizes.len() as u8);
        packet.extend(padding);
    }
    for &size in written {
        push_length(&mut packet, size);
    }
    packet.extend(call.frames);
    packet.resize(length, 0);
    packet
}

/// A byte of 255 stands for itself and 254 more; another for itself and as many as it says.
fn padding_lengths(padding: usize) -> Vec<u8> {
    let mut lengths = Vec::new();
    let mut left = padding;
    while left > 255 {
        lengths.push(255);
        left -= 255;
    }
    lengths.extend(left.checked_sub(1).map(|counted| counted as u8));
    lengths
}

pub fn push_length(packet: &mut Vec<u8>, size: u16) {
    match size.checked_sub(252) {
        None => packet.push(size as u8),
        Some(past) => packet.extend([252 + (past % 4) as u8, (past / 4) as u8]),
    }
}

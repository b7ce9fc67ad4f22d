//! Whole packets: their framing read and written, ours beside libopus's. The crate has none.
//!
//! All frames have the same bytes, since both sides copy them and look at none; and each packet is read
//! where the one before stood. So all is near, as to a program that just received or made it.

use crate::repacketizer::{pad, parse, Repacketizer};
use crate::row::{on_each, Row, Work, Works};
use oracle::packets::ours;
use oracle::rng::Rng;
use std::ops::RangeInclusive;

pub const PACKETS: usize = 8192;

/// 16 kHz, and 10 ms a frame: twelve are the most.
const CONFIG: u32 = 8;
const FRAME_BYTE: u8 = 85;
const LONGEST_FRAME: u32 = 400;
/// The longest buffer that our call takes.
const ROOM: usize = 16384;

/// What a packet is written of.
#[derive(Clone)]
struct Plan {
    sizes: Vec<u16>,
    /// The sum of the sizes.
    bytes: usize,
    /// Asked for, or 0 for the shortest.
    length: u32,
}

/// A packet: as many of its first bytes as reading can look at, and its length.
#[derive(Clone)]
struct Packet {
    first: [u8; 32],
    length: usize,
}

/// Sizes of so many frames.
type Sizes = fn(&mut Rng, usize) -> Vec<u16>;
const ALIKE: Sizes = |rng, count| vec![size(rng); count];
const APART: Sizes = |rng, count| (0..count).map(|_| size(rng)).collect();
/// One in eight is long enough for a length of two bytes.
const SOME_LONG: Sizes = |rng, count| (0..count).map(|_| any_size(rng)).collect();

pub fn rows(rng: &mut Rng) -> Vec<Row> {
    let kinds = [
        kind(rng, "1 frame", 1, ALIKE, 0..=0),
        kind(rng, "2 frames of one size", 2, ALIKE, 0..=0),
        kind(rng, "2 frames", 2, APART, 0..=0),
        kind(rng, "3 frames of one size", 3, ALIKE, 0..=0),
        kind(rng, "3 frames", 3, APART, 0..=0),
        kind(rng, "3 frames and padding", 3, APART, 1..=300),
        kind(rng, "12 frames of one size", 12, ALIKE, 0..=0),
        kind(rng, "12 frames", 12, APART, 0..=0),
        kind(rng, "12 frames, some long", 12, SOME_LONG, 0..=0),
    ];
    let (read, written): (Vec<_>, Vec<_>) = kinds.into_iter().map(|[r, w]| (r, w)).unzip();
    read.into_iter().chain(written).collect()
}

fn kind(
    rng: &mut Rng,
    name: &str,
    count: usize,
    sizes: Sizes,
    padding: RangeInclusive<u32>,
) -> [Row; 2] {
    let plan = |_| {
        let plan = Plan::new(sizes(rng, count));
        plan.padded(rng.between(*padding.start(), *padding.end()))
    };
    let plans: Vec<Plan> = (0..PACKETS).map(plan).collect();
    let packets: Vec<Packet> = plans.iter().map(Plan::packet).collect();
    let row = |what, ours, libopus| Row {
        group: "Whole packets",
        name: format!("{name}, {what}"),
        inputs: PACKETS,
        units: 1,
        works: Works::from([Some(ours), None, Some(libopus)]),
    };
    [
        row("read", reading(&packets, read), reading(&packets, parse)),
        row("written", writing(&plans), repacking(&plans)),
    ]
}

/// As of speech.
fn size(rng: &mut Rng) -> u16 {
    rng.between(20, 80) as u16
}

fn any_size(rng: &mut Rng) -> u16 {
    match rng.one_in(8) {
        true => rng.between(252, LONGEST_FRAME) as u16,
        false => size(rng),
    }
}

impl Plan {
    fn new(sizes: Vec<u16>) -> Self {
        let bytes = sizes.iter().map(|&size| usize::from(size)).sum();
        Plan {
            sizes,
            bytes,
            length: 0,
        }
    }

    /// So many bytes longer than the shortest.
    fn padded(mut self, padding: u32) -> Self {
        if padding > 0 {
            self.length = self.packet().length as u32 + padding;
        }
        self
    }

    fn packet(&self) -> Packet {
        let mut buffer = [0; ROOM];
        let length = self.write(&[FRAME_BYTE; ROOM], &mut buffer);
        let first = *buffer.first_chunk().expect("it is longer");
        Packet { first, length }
    }

    #[inline(always)]
    fn write(&self, frames: &[u8], buffer: &mut [u8]) -> usize {
        let frames = &frames[..self.bytes];
        ours::write(buffer, CONFIG, frames, &self.sizes, self.length).length as usize
    }
}

/// The number of frames, and start and size of the last.
#[inline(always)]
fn read(packet: &[u8]) -> [u32; 3] {
    let read = ours::read(packet);
    let last = read.count as usize - 1;
    [read.count, read.start[last].into(), read.size[last].into()]
}

fn reading(packets: &[Packet], last_frame: impl Fn(&[u8]) -> [u32; 3] + 'static) -> Work {
    let mut buffer = [FRAME_BYTE; ROOM];
    on_each(packets, move |packet| {
        buffer[..packet.first.len()].copy_from_slice(&packet.first);
        let [count, start, size] = last_frame(&buffer[..packet.length]);
        count ^ start << 4 ^ size << 20
    })
}

fn writing(plans: &[Plan]) -> Work {
    let (frames, mut buffer) = ([FRAME_BYTE; ROOM], [0; ROOM]);
    on_each(plans, move |plan| {
        let length = plan.write(&frames, &mut buffer);
        ends(&buffer[..length])
    })
}

fn repacking(plans: &[Plan]) -> Work {
    let mut single = [FRAME_BYTE; 1 + LONGEST_FRAME as usize];
    single[0] = (CONFIG << 3) as u8;
    let mut buffer = [0; ROOM];
    let mut repacketizer = Repacketizer::new();
    on_each(plans, move |plan| {
        let singles = plan.sizes.iter().map(|&size| &single[..=usize::from(size)]);
        let shortest = repacketizer.join(singles, &mut buffer);
        let length = match plan.length as usize {
            0 => shortest,
            longer => {
                pad(&mut buffer[..longer], shortest);
                longer
            }
        };
        ends(&buffer[..length])
    })
}

fn ends(packet: &[u8]) -> u32 {
    let (first, last) = (packet[0], packet[packet.len() - 1]);
    packet.len() as u32 ^ u32::from(first) << 16 ^ u32::from(last) << 24
}

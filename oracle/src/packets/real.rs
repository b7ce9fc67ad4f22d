//! Packets that libopus's encoder made of a voice of sorts, and those that its repacketizer made of them.

use super::libopus::merge;
use super::reading::{Kind, Reading};
use super::rewrite::{most_frames, LONGEST};
use crate::encoder::Encoder;
use crate::models::Model;
use crate::ours::{dec, dec_open};
use crate::rng::Rng;

/// In milliseconds, by the last two bits of the configuration.
const DURATIONS: [u32; 4] = [10, 20, 40, 60];

/// Of each rate and duration, without redundancy and with it.
const PACKETS: usize = 96;

/// A second for each kHz: enough for redundancy, and for lengths of two bytes.
const BITS: u32 = 3000;

/// Packets that the encoder is to think lost, in percent, where it adds redundancy.
const LOST: i32 = 20;

const CODED: Kind = ("of libopus's encoder", &[0]);
const REDUNDANT: Kind = ("with redundancy", &[0]);
const MERGED: Kind = ("merged by libopus", &[0]);

/// Packets one after the other.
type Run = Vec<Vec<u8>>;

pub fn put(reading: &mut Reading, rng: &mut Rng) {
    let configs = 0..DURATIONS.len() as u32 * 3;
    let runs: Vec<Run> = configs.flat_map(|config| runs(rng, config)).collect();
    let merged: Run = runs.iter().flat_map(merged).collect();
    let all = runs.into_iter().flatten();
    let (redundant, coded): (Run, Run) = all.partition(|packet| has_redundancy(packet));
    put_all(reading, CODED, &coded);
    put_all(reading, REDUNDANT, &redundant);
    put_all(reading, MERGED, &merged);
}

fn put_all(reading: &mut Reading, kind: Kind, packets: &[Vec<u8>]) {
    reading.begin(kind);
    packets.iter().for_each(|packet| reading.put(packet));
}

fn runs(rng: &mut Rng, config: u32) -> [Run; 2] {
    let khz = 8 + config / 4 * 4;
    let samples = khz * DURATIONS[config as usize % 4];
    let encoder = || Encoder::new(khz, BITS);
    [encoder(), encoder().with_redundancy(LOST)].map(|mut encoder| {
        let next = || encoder.packet(rng, samples as usize);
        let run: Run = std::iter::repeat_with(next).take(PACKETS).collect();
        let as_asked = |packet: &Vec<u8>| u32::from(packet[0]) == config << 3;
        assert!(run.iter().all(as_asked), "configuration {config}");
        run
    })
}

/// RFC 6716, section 4.2.3: a flag says so behind the voice flag of each SILK frame.
fn has_redundancy(packet: &[u8]) -> bool {
    let (config, frame) = (packet[0] / 8, &packet[1..]);
    let flags = [1, 1, 2, 3][usize::from(config) % 4];
    let opened = dec_open(frame);
    let skip = |state, _| dec(frame, state, Model::Bit(1)).state;
    let behind = (0..flags).fold(opened.state, skip);
    dec(frame, behind, Model::Bit(1)).value == 1
}

/// Two to as many as last 120 ms, put together.
fn merged(run: &Run) -> Vec<Vec<u8>> {
    let most = most_frames(u32::from(run[0][0] / 8));
    let groups = (2..=most).flat_map(|count| run.chunks_exact(count));
    let merged = groups.map(|packets| {
        let mut packet = vec![0; LONGEST];
        let length = merge(packets, &mut packet).expect("packets of one configuration");
        packet.truncate(length);
        packet
    });
    merged.collect()
}

//! Frames out of packets that libopus's own encoder made of a voice of sorts.

use crate::frames::{Frame, FRAMES};
use crate::side::Setting;
use crate::size::Size;
use oracle::encoder::Encoder;
use oracle::models::Model;
use oracle::ours::{dec, dec_open};
use oracle::rng::Rng;

/// Frames one after the other, in 1,250 bits a second for each kHz.
pub fn frames(rng: &mut Rng, size: Size) -> Vec<Frame> {
    let mut encoder = Encoder::new(size.khz, 1250);
    let next = |_| frame(&encoder.packet(rng, size.length()), size);
    (0..FRAMES).map(next).collect()
}

/// RFC 6716, sections 3.1 and 4.2.3: a byte that says what the packet is; a bit that says whether its
/// one frame is active, and one for redundancy, which was not asked for.
fn frame(packet: &[u8], size: Size) -> Frame {
    let configuration = size.khz - 8 + size.subframes / 4;
    assert_eq!(
        u32::from(packet[0]),
        configuration << 3,
        "a SILK frame of this size"
    );
    let packet = packet[1..].to_vec();
    let active = dec(&packet, dec_open(&packet).state, Model::Bit(1));
    let redundant = dec(&packet, active.state, Model::Bit(1));
    assert_eq!(redundant.value, 0, "redundancy");
    let setting = Setting {
        active: active.value,
        mode: 0,
        prev_type: 0,
        prev_lag: 0,
    };
    Frame::new(packet, redundant.state, size, setting)
}

//! libopus's calls on whole packets.

use super::ours::{Packet, Written};
use super::rewrite::{self, channels, width, LAST_SILK, LONGEST, MOST_FRAMES};
use super::Call;
use raw::{
    opus_packet_pad, opus_packet_parse, opus_repacketizer_cat, opus_repacketizer_create,
    opus_repacketizer_destroy, opus_repacketizer_out,
};
use std::ptr::{null, null_mut};

/// opus_defines.h
const OPUS_INVALID_PACKET: i32 = -4;

/// opus.h
pub mod raw {
    use std::ffi::c_void;

    extern "C" {
        pub fn opus_packet_parse(
            packet: *const u8,
            length: i32,
            toc: *mut u8,
            frames: *mut *const u8,
            sizes: *mut i16,
            offset: *mut i32,
        ) -> i32;
        pub fn opus_repacketizer_get_size() -> i32;
        pub fn opus_repacketizer_init(merger: *mut c_void) -> *mut c_void;
        pub fn opus_repacketizer_create() -> *mut c_void;
        pub fn opus_repacketizer_cat(merger: *mut c_void, packet: *const u8, length: i32) -> i32;
        pub fn opus_repacketizer_out(merger: *mut c_void, packet: *mut u8, room: i32) -> i32;
        pub fn opus_repacketizer_destroy(merger: *mut c_void);
        pub fn opus_packet_pad(packet: *mut u8, length: i32, padded: i32) -> i32;
    }
}

/// Behind refusal 1; libopus has no refusal 11.
pub fn read(packet: &[u8]) -> Packet {
    if packet.len() > LONGEST {
        return Packet::refused(1);
    }
    let (from, length) = (packet.as_ptr(), packet.len() as i32);
    let (mut toc, mut frames, mut sizes) = (0, [null(); MOST_FRAMES], [0; MOST_FRAMES]);
    let (places, widths) = (frames.as_mut_ptr(), sizes.as_mut_ptr());
    // SAFETY: the packet comes with its length, and there is room for as many frames as one can have.
    let count = unsafe { opus_packet_parse(from, length, &mut toc, places, widths, null_mut()) };
    if count == OPUS_INVALID_PACKET {
        return Packet::refused(10);
    }
    let (config, stereo) = channels(toc);
    if config > LAST_SILK || stereo {
        return Packet::refused(11);
    }
    let count = usize::try_from(count).expect("frames, or an invalid packet");
    let mut answer = Packet {
        config,
        arrangement: u32::from(toc % 4),
        count: count as u32,
        ..Packet::default()
    };
    for place in 0..count {
        answer.start[place] = (frames[place] as usize - from as usize) as u16;
        answer.size[place] = sizes[place] as u16;
    }
    answer.padding = padding(packet, &answer.size[..count]);
    answer
}

/// What neither the first two bytes nor lengths nor frames take.
fn padding(packet: &[u8], sizes: &[u16]) -> u32 {
    if packet[0] % 4 != 3 {
        return 0;
    }
    let written = match packet[1] & 128 {
        0 => 0,
        _ => sizes.len() - 1,
    };
    let lengths: usize = sizes[..written].iter().map(|&size| width(size)).sum();
    (packet.len() - 2 - lengths - rewrite::total(sizes)) as u32
}

/// Behind the refusals; 10 where libopus itself refuses.
pub fn write(buffer: &mut [u8], call: &Call) -> Written {
    let refused = |refusal| Written { refusal, length: 0 };
    match rewrite::refusal(buffer.len(), call) {
        0 => match written(buffer, call) {
            Some(length) => Written { refusal: 0, length },
            None => refused(10),
        },
        refusal => refused(refusal),
    }
}

/// The frames as packets of one frame each, put together and, where a length is asked for, padded.
fn written(buffer: &mut [u8], call: &Call) -> Option<u32> {
    let toc = [8 * call.config as u8];
    let mut rest = call.frames;
    let packet = |&size: &u16| {
        let (frame, behind) = rest.split_at(size.into());
        rest = behind;
        [&toc, frame].concat()
    };
    let packets: Vec<Vec<u8>> = call.sizes.iter().map(packet).collect();
    let shortest = merge(&packets, buffer)?;
    if call.length == 0 {
        return Some(shortest as u32);
    }
    let (at, from, to) = (buffer.as_mut_ptr(), shortest as i32, call.length as i32);
    // SAFETY: both lengths lie within the buffer.
    let outcome = unsafe { opus_packet_pad(at, from, to) };
    (outcome == 0).then_some(call.length)
}

/// The length of the packet that has all the packets' frames.
pub fn merge(packets: &[Vec<u8>], buffer: &mut [u8]) -> Option<usize> {
    let (at, room) = (buffer.as_mut_ptr(), buffer.len() as i32);
    // SAFETY: the merger is made, used and destroyed here, while the packets are lent; packets and buffer
    // come with their lengths.
    let length = unsafe {
        let merger = opus_repacketizer_create();
        let taken = packets
            .iter()
            .all(|packet| opus_repacketizer_cat(merger, packet.as_ptr(), packet.len() as i32) == 0);
        let length = if taken {
            opus_repacketizer_out(merger, at, room)
        } else {
            OPUS_INVALID_PACKET
        };
        opus_repacketizer_destroy(merger);
        length
    };
    usize::try_from(length).ok()
}

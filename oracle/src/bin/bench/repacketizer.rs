//! libopus's public calls on whole packets.

use oracle::packets::libopus::raw::{
    opus_packet_pad, opus_packet_parse, opus_repacketizer_cat, opus_repacketizer_get_size,
    opus_repacketizer_init, opus_repacketizer_out,
};
use std::mem::MaybeUninit;

/// No packet has more frames: 120 ms of 2.5 each.
const MOST_FRAMES: usize = 48;

/// All that the call can say is asked for, in memory that nobody cleared; answered are the number of
/// frames, and start and size of the last.
#[inline(always)]
pub fn parse(packet: &[u8]) -> [u32; 3] {
    let (mut toc, mut offset) = (0, 0);
    let mut frames = [MaybeUninit::<*const u8>::uninit(); MOST_FRAMES];
    let mut sizes = [MaybeUninit::<i16>::uninit(); MOST_FRAMES];
    let (starts, lengths) = (frames.as_mut_ptr().cast(), sizes.as_mut_ptr().cast());
    let (at, len) = (packet.as_ptr(), packet.len() as i32);
    // SAFETY: the packet comes with its length; the call fills as many places of both as it answers, with
    // parts of the packet. A negative answer is no place.
    unsafe {
        let count = opus_packet_parse(at, len, &mut toc, starts, lengths, &mut offset);
        let last = count as usize - 1;
        let start = frames[last].assume_init().offset_from(at);
        [count as u32, start as u32, sizes[last].assume_init() as u32]
    }
}

/// Set up once, and begun anew for each packet.
pub struct Repacketizer(Vec<u64>);

impl Repacketizer {
    pub fn new() -> Self {
        // SAFETY: it answers a number.
        let size = unsafe { opus_repacketizer_get_size() };
        Repacketizer(vec![0; (size as usize).div_ceil(8)])
    }

    /// Puts packets of one frame each together, and answers the length.
    #[inline(always)]
    pub fn join<'a>(
        &mut self,
        packets: impl Iterator<Item = &'a [u8]>,
        buffer: &mut [u8],
    ) -> usize {
        let repacketizer = self.0.as_mut_ptr().cast();
        // SAFETY: a memory of the size asked for; packets and buffer come with their lengths, and none of
        // them changes or goes before the packet is out.
        unsafe {
            opus_repacketizer_init(repacketizer);
            for packet in packets {
                opus_repacketizer_cat(repacketizer, packet.as_ptr(), packet.len() as i32);
            }
            let (to, room) = (buffer.as_mut_ptr(), buffer.len() as i32);
            opus_repacketizer_out(repacketizer, to, room) as usize
        }
    }
}

/// Pads the packet of this length in the buffer, so that it takes the whole buffer.
#[inline(always)]
pub fn pad(buffer: &mut [u8], len: usize) {
    let longer = buffer.len() as i32;
    // SAFETY: the buffer has room for the longer packet.
    unsafe { opus_packet_pad(buffer.as_mut_ptr(), len as i32, longer) };
}

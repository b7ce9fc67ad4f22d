//! Our exported calls on whole packets.

/// include/tignarops.h, `tg_packet`.
#[repr(C)]
#[derive(Clone, Copy, Debug, Default, PartialEq, Eq)]
pub struct Packet {
    pub refusal: u32,
    pub config: u32,
    pub arrangement: u32,
    pub count: u32,
    pub padding: u32,
    pub start: [u16; 12],
    pub size: [u16; 12],
}

impl Packet {
    /// Every other field is 0.
    pub fn refused(refusal: u32) -> Self {
        Packet {
            refusal,
            ..Packet::default()
        }
    }
}

/// include/tignarops.h, `tg_packet_written`.
#[repr(C)]
#[derive(Clone, Copy, Debug, Default, PartialEq, Eq)]
pub struct Written {
    pub refusal: u32,
    pub length: u32,
}

mod raw {
    use super::{Packet, Written};

    extern "C" {
        pub fn tg_packet_read(packet: *const u8, len: usize) -> Packet;
        pub fn tg_packet_write(
            buf: *mut u8,
            len: usize,
            config: u32,
            frames: *const u8,
            n: usize,
            sizes: *const u16,
            count: usize,
            length: u32,
        ) -> Written;
    }
}

// SAFETY of both: each pointer comes with its slice's length, the frames and sizes are no part of the
// buffer, and the calls are defined for all numbers and bytes. Inlined where the call itself is timed.

#[inline(always)]
pub fn read(packet: &[u8]) -> Packet {
    unsafe { raw::tg_packet_read(packet.as_ptr(), packet.len()) }
}

#[inline(always)]
pub fn write(buf: &mut [u8], config: u32, frames: &[u8], sizes: &[u16], length: u32) -> Written {
    let (at, len) = (buf.as_mut_ptr(), buf.len());
    let (from, n) = (frames.as_ptr(), frames.len());
    let (each, count) = (sizes.as_ptr(), sizes.len());
    unsafe { raw::tg_packet_write(at, len, config, from, n, each, count, length) }
}

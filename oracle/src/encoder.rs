//! libopus's own encoder, which makes packets of a voice of sorts.

use crate::domain::LONGEST;
use crate::rng::Rng;
use crate::voice::Voice;
use std::ffi::c_void;
use std::ptr::null_mut;

// opus_defines.h, and opus_private.h for the mode.
const OPUS_APPLICATION_VOIP: i32 = 2048;
const OPUS_SET_BITRATE: i32 = 4002;
const OPUS_SET_BANDWIDTH: i32 = 4008;
const OPUS_SET_INBAND_FEC: i32 = 4012;
const OPUS_SET_PACKET_LOSS_PERC: i32 = 4014;
const OPUS_SET_FORCE_MODE: i32 = 11002;
const MODE_SILK_ONLY: i32 = 1000;

extern "C" {
    fn opus_encoder_create(
        hz: i32,
        channels: i32,
        application: i32,
        error: *mut i32,
    ) -> *mut c_void;
    fn opus_encoder_ctl(encoder: *mut c_void, request: i32, ...) -> i32;
    fn opus_encode(
        encoder: *mut c_void,
        samples: *const i16,
        length: i32,
        packet: *mut u8,
        room: i32,
    ) -> i32;
    fn opus_encoder_destroy(encoder: *mut c_void);
}

/// Of SILK alone, in mono.
pub struct Encoder {
    raw: *mut c_void,
    voice: Voice,
}

impl Encoder {
    /// In so many bits a second for each kHz.
    pub fn new(khz: u32, bits: u32) -> Self {
        let hz = 1000 * khz as i32;
        // SAFETY: the call takes no error where it is not wanted.
        let raw = unsafe { opus_encoder_create(hz, 1, OPUS_APPLICATION_VOIP, null_mut()) };
        let mut encoder = Encoder {
            raw,
            voice: Voice::new(f64::from(hz)),
        };
        encoder.set(OPUS_SET_FORCE_MODE, MODE_SILK_ONLY);
        encoder.set(OPUS_SET_BANDWIDTH, bandwidth(khz));
        encoder.set(OPUS_SET_BITRATE, (bits * khz) as i32);
        encoder
    }

    /// As for a line that loses this share of its packets: they also hold the frame before.
    pub fn with_redundancy(mut self, percent: i32) -> Self {
        self.set(OPUS_SET_INBAND_FEC, 1);
        self.set(OPUS_SET_PACKET_LOSS_PERC, percent);
        self
    }

    fn set(&mut self, request: i32, value: i32) {
        // SAFETY: each of these requests takes one number.
        let outcome = unsafe { opus_encoder_ctl(self.raw, request, value) };
        assert_eq!(outcome, 0, "request {request} of {value}");
    }

    /// Of the voice's next samples.
    pub fn packet(&mut self, rng: &mut Rng, samples: usize) -> Vec<u8> {
        let samples: Vec<i16> = (0..samples).map(|_| self.voice.sample(rng)).collect();
        let (from, length) = (samples.as_ptr(), samples.len() as i32);
        let mut packet = vec![0; LONGEST];
        // SAFETY: samples and bytes come with their lengths.
        let bytes =
            unsafe { opus_encode(self.raw, from, length, packet.as_mut_ptr(), LONGEST as i32) };
        packet.truncate(usize::try_from(bytes).expect("a packet"));
        packet
    }
}

impl Drop for Encoder {
    fn drop(&mut self) {
        // SAFETY: it was made by libopus, and nothing uses it from now on.
        unsafe { opus_encoder_destroy(self.raw) }
    }
}

/// OPUS_BANDWIDTH_NARROWBAND, MEDIUMBAND or WIDEBAND.
fn bandwidth(khz: u32) -> i32 {
    1099 + khz as i32 / 4
}

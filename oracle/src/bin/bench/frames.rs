//! Frames read: the side indices, the pulses, and both.

use crate::ours::Ours;
use crate::row::{by_size, on_each, BySize, Row, Work};
use crate::side::{sides, Kind, Scribe, Setting, Side};
use crate::size::Size;
use oracle::domain::LONGEST;
use oracle::frames::indices::Record;
use oracle::models::Model;
use oracle::ours::{dec, dec_open, enc_account};
use oracle::rng::Rng;
use oracle::silk::tables_pulses_per_block::silk_rate_levels_iCDF;
use oracle::state::Reader;
use std::hint::black_box;

/// So many frames of each size and source.
pub const FRAMES: usize = 512;

/// A frame in its packet.
#[derive(Clone)]
pub struct Frame {
    pub packet: Vec<u8>,
    setting: Setting,
    /// The reader before the frame.
    start: Reader,
    /// The reader before the pulses, and the types that they are read under.
    middle: Reader,
    kind: Kind,
}

impl Frame {
    pub fn new(mut packet: Vec<u8>, start: Reader, size: Size, setting: Setting) -> Self {
        let mut reader = Ours::resume(&mut packet, start);
        let kind = Ours::read_indices(&mut Ours::decoder(size), &mut reader, setting);
        let middle = reader.state;
        Frame {
            packet,
            setting,
            start,
            middle,
            kind,
        }
    }

    /// With these side indices, and these pulses behind them; the packet is as long as they need.
    pub fn written<S: Scribe>(
        size: Size,
        setting: Setting,
        record: Record,
        pulses: impl FnOnce(&mut S::Writer<'_>),
    ) -> Self {
        let mut packet = vec![0; LONGEST];
        let mut writer = S::fresh(&mut packet);
        S::write_indices(&mut S::encoder(size), &mut writer, setting, record);
        pulses(&mut writer);
        let state = S::writer_state(&writer);
        S::finish(&mut writer);
        drop(writer);
        let bits = enc_account(&packet, state).value as usize;
        packet.truncate(bits.div_ceil(8));
        let start = dec_open(&packet).state;
        Frame::new(packet, start, size, setting)
    }

    /// Of random bytes, more than it needs: each symbol is as often as its probability says.
    pub fn random(rng: &mut Rng, size: Size) -> Self {
        let mut packet = vec![0; 512];
        rng.fill(&mut packet);
        let start = dec_open(&packet).state;
        let setting = Setting {
            active: rng.between(0, 1),
            mode: rng.between(0, 2),
            prev_type: rng.between(0, 2),
            prev_lag: rng.between(0, 16 * size.khz - 1) as i16,
        };
        Frame::new(packet, start, size, setting)
    }

    /// The rate level, which is the first symbol of the pulses.
    pub fn level(&self) -> u32 {
        let levels = &silk_rate_levels_iCDF[self.kind.0 as usize >> 1];
        dec(&self.packet, self.middle, Model::Table(levels, 8)).value
    }
}

/// The rows of a source of frames.
pub fn rows(group: &'static str, frames: &BySize<Frame>) -> Vec<Row> {
    by_size(
        group,
        frames,
        &[
            ("side indices", |frames, size| sides!(indices(frames, size))),
            ("pulses", |frames, size| sides!(pulses(frames, size))),
            ("whole frame", |frames, size| sides!(whole(frames, size))),
        ],
    )
}

fn indices<S: Side>(frames: &[Frame], size: Size) -> Work {
    let mut decoder = S::decoder(size);
    on_each(frames, move |frame| {
        let mut reader = S::resume(&mut frame.packet, frame.start);
        black_box(S::read_indices(&mut decoder, &mut reader, frame.setting));
        S::reader_range(&reader)
    })
}

fn pulses<S: Side>(frames: &[Frame], size: Size) -> Work {
    let mut pulses = vec![0; size.places()];
    on_each(frames, move |frame| {
        let mut reader = S::resume(&mut frame.packet, frame.middle);
        S::read_pulses(&mut reader, &mut pulses, size, frame.kind);
        S::reader_range(&reader)
    })
}

pub fn whole<S: Side>(frames: &[Frame], size: Size) -> Work {
    let mut decoder = S::decoder(size);
    let mut pulses = vec![0; size.places()];
    on_each(frames, move |frame| {
        let mut reader = S::resume(&mut frame.packet, frame.start);
        let kind = S::read_indices(&mut decoder, &mut reader, frame.setting);
        S::read_pulses(&mut reader, &mut pulses, size, kind);
        S::reader_range(&reader)
    })
}

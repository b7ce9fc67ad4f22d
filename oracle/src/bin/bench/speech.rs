//! Frames as speech has them, by a simple model: voiced, unvoiced and inactive ones, gains and spectra
//! that change little, pulses at each period of a voiced frame, few low bits.

use crate::frames::Frame;
use crate::ours::Ours;
use crate::side::{Kind, Pulses, Scribe, Setting};
use crate::size::Size;
use crate::unopus::Unopus;
use oracle::domain::order;
use oracle::frames::indices::Record;
use oracle::rng::Rng;

const VOICED: i8 = 2;

/// What a frame says.
#[derive(Clone)]
pub struct Said {
    pub setting: Setting,
    pub record: Record,
    pub pulses: Pulses,
    pub level: u32,
}

/// Half of the frames are voiced, and one in three is not the first of its packet. Each has 20 to 80
/// bytes, if it has 4 subframes, and half of that, if it has 2. Those are passed over which the crate's
/// writers would put otherwise than ours, since the sides are to do the same.
pub fn said(rng: &mut Rng, size: Size) -> Said {
    let signal_type = rng.pick(&[0, 0, 1, 1, 1, 2, 2, 2, 2, 2]);
    let mode = rng.pick(&[0, 0, 2]);
    loop {
        let mut said = any(rng, size, signal_type, mode);
        let theirs = said.frame::<Unopus>(size);
        said.level = theirs.level();
        let ours = said.frame::<Ours>(size).packet;
        let bytes = 5 * size.subframes..=20 * size.subframes;
        if ours == theirs.packet && bytes.contains(&(ours.len() as u32)) {
            return said;
        }
    }
}

impl Said {
    pub fn kind(&self) -> Kind {
        let Record {
            signal_type,
            offset_type,
            ..
        } = self.record;
        (signal_type as u32, offset_type as u32)
    }

    pub fn frame<S: Scribe>(&mut self, size: Size) -> Frame {
        let (kind, level) = (self.kind(), self.level);
        Frame::written::<S>(size, self.setting, self.record, |writer| {
            S::write_pulses(writer, &mut self.pulses, size, kind, level)
        })
    }
}

fn any(rng: &mut Rng, size: Size, signal_type: i8, mode: u32) -> Said {
    let record = record(rng, size, signal_type, mode);
    let setting = Setting {
        active: u32::from(signal_type > 0),
        mode,
        prev_type: rng.pick(&[signal_type as u32, signal_type as u32, 1]),
        // Too far for the crate's writer to code a lag relative to it, which ours never does.
        prev_lag: record.lag + rng.between(20, 40) as i16,
    };
    Said {
        setting,
        record,
        pulses: pulses(rng, size, &record),
        level: 0,
    }
}

fn record(rng: &mut Rng, size: Size, signal_type: i8, mode: u32) -> Record {
    let mut record = Record {
        signal_type,
        offset_type: below(rng, 2),
        interp: match size.subframes {
            2 => 4,
            _ => rng.pick(&[0, 1, 2, 3, 4, 4, 4, 4]),
        },
        seed: below(rng, 4),
        ..Record::default()
    };
    for gain in &mut record.gains {
        // 4 is the gain before.
        *gain = 2 + below(rng, 3) + below(rng, 3);
    }
    if mode != 2 {
        record.gains[0] = 12 + 8 * signal_type + below(rng, 16);
    }
    record.nlsf[0] = below(rng, 32);
    record.nlsf[1..=order(size.khz)].fill_with(|| residual(rng));
    if signal_type == VOICED {
        voiced(rng, size, mode, &mut record);
    }
    record
}

fn voiced(rng: &mut Rng, size: Size, mode: u32, record: &mut Record) {
    record.lag = rng.between(size.khz, 16 * size.khz - 1) as i16;
    record.contour = match (size.khz, size.subframes) {
        (8, 2) => below(rng, 3),
        (8, _) => below(rng, 11),
        (_, 2) => below(rng, 12),
        _ => below(rng, 34),
    };
    record.period = below(rng, 3);
    record.ltp = [(); 4].map(|()| below(rng, 8 << record.period));
    if mode == 0 {
        record.ltp_scale = rng.pick(&[0, 0, 0, 1, 2]);
    }
}

fn below(rng: &mut Rng, end: u32) -> i8 {
    rng.between(0, end - 1) as i8
}

/// A spectrum index behind the first: most are small, few take an extension.
pub fn residual(rng: &mut Rng) -> i8 {
    match rng.between(0, 39) {
        0 => rng.pick(&[-6, -5, -4, 4, 5, 6]),
        _ => below(rng, 3) + below(rng, 3) - 2,
    }
}

/// One place in so many has a pulse, and a voiced frame has larger ones at each period.
fn pulses(rng: &mut Rng, size: Size, record: &Record) -> Pulses {
    let rare = match record.signal_type {
        0 => rng.between(10, 40),
        1 => rng.between(3, 8),
        _ => rng.between(5, 16),
    };
    let period = record.lag as usize + 2 * size.khz as usize;
    let mut wide = vec![0; size.places()];
    for (place, pulse) in wide[..size.length()].iter_mut().enumerate() {
        if record.signal_type == VOICED && place % period < 2 {
            *pulse = rng.between(1, 6) as i16;
        }
        while rng.one_in(if *pulse == 0 { rare } else { 5 }) {
            *pulse += 1;
        }
        *pulse *= rng.pick(&[-1, 1]);
    }
    let narrow = wide.iter().map(|&pulse| pulse as i8).collect();
    Pulses { wide, narrow }
}

//! Frames of few symbols and of many, up to the most that a frame can have.

use crate::frames::{whole, Frame};
use crate::ours::Ours;
use crate::row::Row;
use crate::side::{sides, Setting, Side};
use crate::size::Size;
use oracle::frames::indices::Record;
use oracle::models::Model;
use oracle::rng::Rng;
use oracle::silk::tables_other::silk_lsb_iCDF;
use oracle::silk::tables_pulses_per_block::{
    silk_pulses_per_block_iCDF, silk_rate_levels_iCDF, silk_shell_code_table0,
    silk_shell_code_table1, silk_shell_code_table2, silk_shell_code_table3,
    silk_shell_code_table_offsets, silk_sign_iCDF,
};

const FRAMES: usize = 128;
const SIZE: Size = Size {
    khz: 16,
    subframes: 4,
};
const BLOCKS: usize = 20;

/// Type, 5 of gains, first spectrum index, 16 others and their extensions, interpolation, 2 of the
/// lag, contour, period, 4 filters, scale, seed.
const SIDE_SYMBOLS: usize = 50;

/// The rows, the symbols of each one's frames, and a packet of the last, whose frames have the most.
pub struct Growth {
    pub rows: Vec<Row>,
    pub symbols: Vec<usize>,
    pub longest: Vec<u8>,
}

pub fn growth(rng: &mut Rng) -> Growth {
    let mut growth = Growth {
        rows: Vec::new(),
        symbols: Vec::new(),
        longest: Vec::new(),
    };
    for (group, lows) in [("without low bits", 0), ("ten low bits", 10)] {
        for filled in (0..=BLOCKS).step_by(2) {
            let mut symbols = 0;
            let frames: Vec<Frame> = (0..FRAMES)
                .map(|_| frame(rng, filled, lows, &mut symbols))
                .collect();
            growth.longest = frames[0].packet.clone();
            growth.symbols.push(SIDE_SYMBOLS + symbols / FRAMES);
            growth.rows.push(Row {
                group,
                name: format!("{filled} blocks"),
                inputs: FRAMES,
                units: 1,
                works: sides!(whole(&frames, SIZE)),
            });
        }
    }
    growth
}

/// A voiced frame with every spectrum index extended, and a pulse in each place of so many blocks; it
/// adds the symbols of the pulses.
fn frame(rng: &mut Rng, filled: usize, lows: usize, symbols: &mut usize) -> Frame {
    let mut record = Record {
        gains: [(); 4].map(|()| rng.between(0, 40) as i8),
        nlsf: [(); 17].map(|()| rng.pick(&[-1, 1]) * rng.between(4, 10) as i8),
        lag: rng.between(0, 255) as i16,
        signal_type: 2,
        period: 2,
        ltp: [(); 4].map(|()| rng.between(0, 31) as i8),
        ..Record::default()
    };
    record.nlsf[0] = rng.between(0, 31) as i8;
    let setting = Setting {
        active: 1,
        mode: 0,
        prev_type: 0,
        prev_lag: 0,
    };
    Frame::written::<Ours>(SIZE, setting, record, |writer| {
        pulses(rng, filled, lows, &mut |symbol, row| {
            Ours::write(writer, Model::Table(row, 8), symbol);
            *symbols += 1;
        })
    })
}

/// RFC 6716, section 4.2.7.8: the rate level, all counts, all splits, all low bits, all signs.
fn pulses(rng: &mut Rng, filled: usize, lows: usize, say: &mut impl FnMut(u32, &[u8])) {
    let level = 8;
    say(level, &silk_rate_levels_iCDF[1]);
    for block in 0..BLOCKS {
        let (count, lows) = if block < filled { (16, lows) } else { (0, 0) };
        for low in 0..=lows {
            let symbol = if low < lows { 17 } else { count };
            match low {
                0 => say(symbol, &silk_pulses_per_block_iCDF[level as usize]),
                10 => say(symbol, &silk_pulses_per_block_iCDF[9][1..]),
                _ => say(symbol, &silk_pulses_per_block_iCDF[9]),
            }
        }
    }
    for _ in 0..filled {
        halves(16, say);
    }
    for _ in 0..16 * filled * lows {
        say(rng.between(0, 1), &silk_lsb_iCDF);
    }
    // The row of a voiced frame of offset type 0, for counts from 6.
    let signs = [silk_sign_iCDF[7 * 4 + 6], 0];
    for _ in 0..16 * filled {
        say(rng.between(0, 1), &signs);
    }
}

/// So many pulses on as many places, halved down to single ones.
fn halves(pulses: usize, say: &mut impl FnMut(u32, &[u8])) {
    let table = match pulses {
        16 => &silk_shell_code_table3,
        8 => &silk_shell_code_table2,
        4 => &silk_shell_code_table1,
        2 => &silk_shell_code_table0,
        _ => return,
    };
    let start = silk_shell_code_table_offsets[pulses] as usize;
    say(pulses as u32 / 2, &table[start..=start + pulses]);
    halves(pulses / 2, say);
    halves(pulses / 2, say);
}

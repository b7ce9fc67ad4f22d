//! Document 01's domain: which numbers, tables and states are accepted, and the table of refusals.
//! Written from its text alone, and put around the crate's calls, which refuse nothing.

use crate::compare::Answer;
use crate::frames::{indices, pulses, Size};
use crate::models::Model;
use crate::state::{Reader, State, Writer};
use crate::{reader, spectra, writer};

/// "Packet or buffer: 0 to 1,275 bytes."
pub const LONGEST: usize = 1275;

/// The largest total at which a call may begin.
pub const LAST_TOTAL: u32 = 1_000_000;

/// The totals of sound states.
pub const SOUND_TOTALS: std::ops::RangeInclusive<u32> = 33..=1_100_000;

/// The totals at which an answer changes, and one to either side.
pub const TOTALS: [u32; 9] = [
    *SOUND_TOTALS.start() - 1,
    *SOUND_TOTALS.start(),
    *SOUND_TOTALS.start() + 1,
    LAST_TOTAL - 1,
    LAST_TOTAL,
    LAST_TOTAL + 1,
    *SOUND_TOTALS.end() - 1,
    *SOUND_TOTALS.end(),
    *SOUND_TOTALS.end() + 1,
];

/// The longest run of 255s in a sound writer.
pub const LONGEST_RUN: u32 = 150_000;

/// The number that refuses a call on a reader, or 0.
pub fn reader_refusal(packet: &[u8], reader: &Reader, ask: reader::Ask) -> u32 {
    match ask {
        reader::Ask::Open => first(&[(1, packet.len() > LONGEST)]),
        reader::Ask::Account => reader_gate(packet, reader),
        reader::Ask::Read(model) => or(reader_gate(packet, reader), || model_refusal(model)),
    }
}

/// The number that refuses reading side indices, or 0.
pub fn indices_refusal(packet: &[u8], reader: &Reader, call: &indices::Call) -> u32 {
    let outside = !indices_numbers_kept(call);
    or(reader_gate(packet, reader), || first(&[(4, outside)]))
}

/// The number that refuses writing side indices, or 0.
pub fn indices_written_refusal(buffer: &[u8], writer: &Writer, call: &indices::Call) -> u32 {
    or(writer_gate(buffer, writer), || {
        match indices_numbers_kept(call) {
            true => first(&[(8, !call.can_be_written())]),
            false => 4,
        }
    })
}

fn indices_numbers_kept(call: &indices::Call) -> bool {
    frame_kept(call.size) && call.active <= 1 && call.mode <= 2 && call.kept.prev_type <= 2
}

/// The number that refuses reading pulses, or 0.
pub fn pulses_refusal(packet: &[u8], reader: &Reader, call: &pulses::Call) -> u32 {
    let outside = !pulses_numbers_kept(call);
    or(reader_gate(packet, reader), || {
        first(&[(4, outside), (6, call.pulses.len() != pulses_of(call.size))])
    })
}

/// The number that refuses writing pulses, or 0.
pub fn pulses_written_refusal(buffer: &[u8], writer: &Writer, given: &pulses::Levelled) -> u32 {
    let call = &given.call;
    let outside = !pulses_numbers_kept(call) || given.rate_level > 8;
    or(writer_gate(buffer, writer), || {
        first(&[
            (4, outside),
            (6, call.pulses.len() != pulses_of(call.size)),
            (8, pulses::shifts(&call.pulses).is_none()),
        ])
    })
}

fn pulses_numbers_kept(call: &pulses::Call) -> bool {
    frame_kept(call.size) && call.signal_type <= 2 && call.offset_type <= 1
}

/// "8, 12 or 16 kHz; 2 or 4 subframes."
fn frame_kept(size: Size) -> bool {
    [8, 12, 16].contains(&size.khz) && [2, 4].contains(&size.subframes)
}

/// "Frame length is 5 x kHz x subframes .. Blocks of 16 .. The pulse buffer holds exactly 16 x blocks."
pub fn pulses_of(size: Size) -> usize {
    (5 * u64::from(size.khz) * u64::from(size.subframes)).next_multiple_of(16) as usize
}

/// The number that refuses a call on a writer, or 0.
pub fn writer_refusal(buffer: &[u8], writer: &Writer, ask: writer::Ask) -> u32 {
    match ask {
        writer::Ask::Open => first(&[(1, buffer.len() > LONGEST)]),
        writer::Ask::Account | writer::Ask::Done { .. } => writer_gate(buffer, writer),
        writer::Ask::Write(model, value) => or(writer_gate(buffer, writer), || {
            or(model_refusal(model), || {
                first(&[(8, !can_be_written(model, value))])
            })
        }),
    }
}

/// The number that refuses a call on a vector of so many values, or 0.
pub fn spectra_refusal(length: usize, ask: spectra::Ask) -> u32 {
    match ask {
        spectra::Ask::Decode(indices, khz) => {
            first(&[(4, !indices_kept(&indices, khz)), (6, length != order(khz))])
        }
        spectra::Ask::Stabilise(gaps) => first(&[
            (6, !(2..=16).contains(&length) || gaps.len() != length + 1),
            (7, !gaps_kept(gaps)),
        ]),
    }
}

/// What a call answers behind the table: "A refused call answers its number and value 0, hands the
/// state back unchanged".
pub fn guarded<S>(refusal: u32, unchanged: S, call: impl FnOnce() -> (u32, S)) -> Answer<S> {
    let (value, state) = match refusal {
        0 => call(),
        _ => (0, unchanged),
    };
    Answer {
        refusal,
        value,
        state,
    }
}

fn or(refusal: u32, next: impl FnOnce() -> u32) -> u32 {
    match refusal {
        0 => next(),
        _ => refusal,
    }
}

/// "The checks run in number order and the first decides."
pub fn first(checks: &[(u32, bool)]) -> u32 {
    checks
        .iter()
        .find(|(_, refused)| *refused)
        .map_or(0, |(number, _)| *number)
}

/// Refusals 1 to 3, which every call on a state can answer.
fn gate(length: usize, sound: bool, total: u32) -> u32 {
    first(&[(1, length > LONGEST), (2, !sound), (3, total > LAST_TOTAL)])
}

fn reader_gate(packet: &[u8], reader: &Reader) -> u32 {
    let sound = sound_reader(packet.len(), reader);
    gate(packet.len(), sound, reader.nbits_total)
}

fn writer_gate(buffer: &[u8], writer: &Writer) -> u32 {
    let sound = sound_writer(buffer.len(), writer);
    gate(buffer.len(), sound, writer.nbits_total)
}

/// "A sound reader: .."
fn sound_reader(length: usize, reader: &Reader) -> bool {
    sound_state(length, reader)
        && reader.val < reader.rng
        && reader.offs as usize <= length
        && reader.end_offs as usize <= length
        && reader.rem <= 255
        && reader.error <= 1
}

/// "A sound writer: .."
fn sound_writer(length: usize, writer: &Writer) -> bool {
    sound_state(length, writer)
        && u64::from(writer.val) + u64::from(writer.rng) < 1 << 32
        && (-1..=255).contains(&writer.rem)
        && u64::from(writer.offs) + u64::from(writer.end_offs) <= length as u64
        && writer.ext <= LONGEST_RUN
        && (-1..=0).contains(&writer.error)
}

/// "The same length, range, window and total rules."
fn sound_state<T>(length: usize, state: &State<T>) -> bool {
    state.storage as usize == length
        && state.rng > 1 << 23
        && state.rng <= 1 << 31
        && state.nend_bits <= 32
        && u64::from(state.end_window) < 1 << state.nend_bits
        && SOUND_TOTALS.contains(&state.nbits_total)
}

/// Refusals 4 and 5: "Numbers a caller may bring".
fn model_refusal(model: Model) -> u32 {
    match model {
        Model::Bit(exponent) => first(&[(4, !(1..=15).contains(&exponent))]),
        Model::Bits(bits) => first(&[(4, !(1..=25).contains(&bits))]),
        Model::Number(total) => first(&[(4, total < 2)]),
        Model::Table(entries, scale) => match scale {
            1..=8 => first(&[(5, !table_kept(entries, scale))]),
            _ => 4,
        },
    }
}

/// "1 to 256 entries, first entry below 2^scale, never rising, last entry 0."
fn table_kept(entries: &[u8], scale: u32) -> bool {
    match (entries.first(), entries.last()) {
        (Some(&first), Some(&last)) => {
            entries.len() <= 256
                && u32::from(first) < 1 << scale
                && entries.windows(2).all(|pair| pair[0] >= pair[1])
                && last == 0
        }
        _ => false,
    }
}

/// Refusal 8: "bit above 1, raw value of 2^bits or more, bounded value of total or more, table symbol
/// not writable".
fn can_be_written(model: Model, value: u32) -> bool {
    match model {
        Model::Bit(_) => value <= 1,
        Model::Bits(bits) => value < 1 << bits,
        Model::Number(total) => value < total,
        Model::Table(entries, scale) => {
            let above = match value {
                0 => 1 << scale,
                _ => entries.get(value as usize - 1).copied().unwrap_or(0).into(),
            };
            let entry = entries.get(value as usize).copied();
            entry.is_some_and(|entry| u32::from(entry) < above)
        }
    }
}

/// "Order 10 (8, 12 kHz) or 16."
pub fn order(khz: u32) -> usize {
    match khz {
        16 => 16,
        _ => 10,
    }
}

/// "First index 0 to 31, as many more as the order -10 to 10 (places past them are not looked at)."
fn indices_kept(indices: &[i8; 17], khz: u32) -> bool {
    [8, 12, 16].contains(&khz)
        && (0..=31).contains(&indices[0])
        && indices[1..=order(khz)]
            .iter()
            .all(|index| (-10..=10).contains(index))
}

/// "Gaps not negative, last at least 1, total at most 32,768."
pub fn gaps_kept(gaps: &[i16]) -> bool {
    gaps.iter().all(|&gap| gap >= 0)
        && gaps.last().is_some_and(|&last| last >= 1)
        && gaps.iter().map(|&gap| i32::from(gap)).sum::<i32>() <= 32768
}

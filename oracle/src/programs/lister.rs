//! The frame lister.

use super::sections::Rest;
use super::{accepted, counted, line, List, Program};
use crate::coder::Coder;
use crate::compare::Sides;
use crate::domain::{order, LONGEST};
use crate::frames::indices::{self, Kept, Record};
use crate::frames::pulses::{self, Levelled};
use crate::frames::written::{any_frame, every_shift, packet, relative, RELATIVE};
use crate::frames::{Frame, Given, Left, Size, Tally};
use crate::hold::Outcome;
use crate::reader::Reading;
use crate::record::calls;
use crate::report;
use crate::rng::Rng;
use crate::state::{Reader, State};
use std::iter::repeat;

/// What was read of the frames.
#[derive(Default)]
pub struct Lister {
    indices: Tally<indices::Read>,
    pulses: Tally<pulses::Read>,
}

impl Program for Lister {
    const NAME: &'static str = "frame_lister";
    const CALL: u8 = calls::FRAME_LISTER;
    const REFUSALS: &'static [u32] = &[1, 4, 9];

    fn inputs(list: &mut List<Self>, rng: &mut Rng) -> Outcome {
        sections(list)?;
        longest(list)?;
        lengths(list)?;
        numbers(list)?;
        packets(list, rng)?;
        choices(list, rng)?;
        lags(list, rng)?;
        shifts(list, rng)
    }

    fn answer(&mut self, input: &[u8]) -> Result<String, u32> {
        let (call, mut packet) = both(input).ok_or(9_u32)?;
        let opened = Reading::unopus(&mut packet, State::default(), Reading::open()).state;
        let (reader, (record, _)) = read(&mut self.indices, &mut packet, opened, &call)?;
        let behind = pulses::Call::behind(call.size, &record);
        let (_, pulses) = read(&mut self.pulses, &mut packet, reader, &behind)?;
        Ok(indices_text(call.size, &record) + &pulses_text(&pulses))
    }

    fn complete(&self) -> Outcome {
        let missing = self.indices.missing(&[1, 4]);
        report::complete(missing.chain(self.pulses.missing(&[])))
    }
}

/// What the crate's call hands back, or the number that refuses it.
fn read<C: Frame<Coder = Reading>>(
    tally: &mut Tally<C>,
    packet: &mut [u8],
    reader: Reader,
    call: &C::Given,
) -> Result<Left<C>, u32> {
    let answer = tally.of_the_crate(packet, reader, call);
    accepted(answer.refusal)?;
    Ok(answer.state)
}

// ---- document 01: "count 7 (one byte) and kHz, subframes, active, mode, previous type, previous lag (two
// bytes, high first); then the packet's count (two bytes, high first) and its bytes"

fn both(input: &[u8]) -> Option<(indices::Call, Vec<u8>)> {
    let mut rest = Rest(input);
    if rest.byte()? != 7 {
        return None;
    }
    let mut number = || rest.byte().map(u32::from);
    let call = indices::Call {
        size: Size {
            khz: number()?,
            subframes: number()?,
        },
        active: number()?,
        mode: number()?,
        record: Record::default(),
        kept: Kept {
            prev_type: number()?,
            prev_lag: i16::from_be_bytes(rest.pair()?),
        },
    };
    let count = u16::from_be_bytes(rest.pair()?);
    let packet = rest.bytes(count.into())?.to_vec();
    rest.ended((call, packet))
}

fn input(call: &indices::Call, packet: &[u8]) -> Vec<u8> {
    let numbers = call.numbers().map(|number| number as u8);
    let (lag, count) = (call.kept.prev_lag, packet.len() as u16);
    [
        &[7][..],
        &numbers,
        &lag.to_be_bytes(),
        &count.to_be_bytes(),
        packet,
    ]
    .concat()
}

/// "kHz, subframes; signal and offset type; counted gains; counted spectrum indices; interpolation; pitch
/// count (0, or 4 + subframes: lag, contour, period, one filter index a subframe, scale); seed".
fn indices_text(size: Size, record: &Record) -> String {
    let subframes = size.subframes as usize;
    let mut pitch = vec![];
    if record.signal_type == 2 {
        pitch.extend([record.lag, record.contour.into(), record.period.into()]);
        pitch.extend(record.ltp[..subframes].iter().copied().map(i16::from));
        pitch.push(record.ltp_scale.into());
    }
    [
        line("frame", &[size.khz as u8, size.subframes as u8]),
        line("type", &[record.signal_type, record.offset_type]),
        counted("gains", &record.gains[..subframes]),
        counted("nlsf", &record.nlsf[..=order(size.khz)]),
        line("interp", &[record.interp]),
        counted("pitch", &pitch),
        line("seed", &[record.seed]),
    ]
    .concat()
}

/// "Block count, a line a block."
fn pulses_text(pulses: &[i16]) -> String {
    let blocks = pulses.chunks(16);
    let count = line("pulses", &[blocks.len() as u8]);
    let lines = blocks.map(|block| line("", block)[1..].to_string());
    count + &lines.collect::<String>() + "end\n"
}

// ---- the list

/// A frame under these numbers, the others 0.
fn plain(khz: u32, subframes: u32) -> indices::Call {
    indices::Call {
        size: Size { khz, subframes },
        active: 0,
        mode: 0,
        record: Record::default(),
        kept: Kept::default(),
    }
}

/// Document 01's example and one with a packet, cut at each byte and going on; counts that are not 7, or
/// not the packet's.
fn sections(list: &mut List<Lister>) -> Outcome {
    list.accepted(&input(&plain(8, 2), &[]))?;
    let whole = input(&plain(8, 2), &[0x5A, 0xC3, 0x17, 0x88, 0x3E]);
    list.accepted(&whole)?;
    for length in 0..whole.len() {
        list.refused(9, "an input cut short", &whole[..length])?;
    }
    for more in [&[0][..], &[0x3E], &[0xFF], &[0; 2], &[0xFF; 2000]] {
        list.refused(9, "an input that goes on", &[&whole, more].concat())?;
    }
    let (numbers, packet) = (&whole[1..8], &whole[8..]);
    for count in [0, 6, 8, 255] {
        let endless = numbers.iter().copied().chain(repeat(0));
        let as_many: Vec<u8> = endless.take(count.into()).collect();
        for numbers in [numbers, &as_many] {
            let other = [&[count], numbers, packet].concat();
            list.refused(9, "a first count that is not 7", &other)?;
        }
    }
    for count in [[0, 0], [0, 4], [0, 6], [5, 0], [0xFF; 2]] {
        let mut other = whole.clone();
        other[8..10].copy_from_slice(&count);
        list.refused(9, "a count that is not the packet's", &other)?;
    }
    Ok(())
}

/// The longest input that can be whole, and one byte to either side.
fn longest(list: &mut List<Lister>) -> Outcome {
    for byte in [0, 0xFF] {
        let mut longest = input(&plain(8, 2), &[byte; u16::MAX as usize]);
        list.refused(1, "the longest input", &longest)?;
        longest.push(byte);
        list.refused(9, "an input that goes on", &longest)?;
        longest.truncate(longest.len() - 2);
        list.refused(9, "an input cut short", &longest)?;
    }
    Ok(())
}

/// The longest packet and longer ones; 9 comes before 1, and 1 before 4.
fn lengths(list: &mut List<Lister>) -> Outcome {
    for size in Size::all() {
        let call = plain(size.khz, size.subframes);
        list.accepted(&input(&call, &[0xA5; LONGEST - 1]))?;
        list.accepted(&input(&call, &[0xA5; LONGEST]))?;
        list.refused(
            1,
            "a packet of 1,276 bytes",
            &input(&call, &[0xA5; LONGEST + 1]),
        )?;
    }
    let call = plain(9, 2);
    let both = input(&call, &[0; LONGEST + 1]);
    list.refused(1, "a long packet, 4 besides", &both)?;
    let (_, cut) = both.split_last().unwrap();
    list.refused(9, "an input cut short, 1 and 4 besides", cut)?;
    let longer = [&both[..], &[0]].concat();
    list.refused(9, "an input that goes on, 1 and 4 besides", &longer)?;
    let mut other = input(&call, &[]);
    other[0] = 6;
    list.refused(9, "a first count that is not 7, 4 besides", &other)
}

/// Each number outside its range, beside those that are in it, and all at once; any previous lag.
fn numbers(list: &mut List<Lister>) -> Outcome {
    let outside: [(usize, &'static str, &[u8]); 5] = [
        (1, "a rate", &[0, 4, 7, 9, 10, 11, 13, 15, 17, 24, 48, 255]),
        (2, "a count of subframes", &[0, 1, 3, 5, 255]),
        (3, "an active flag", &[2, 255]),
        (4, "a mode", &[3, 255]),
        (5, "a previous type", &[3, 255]),
    ];
    let packet = [0x2B, 0x90, 0x61];
    let whole = input(&plain(16, 4), &packet);
    for (place, cause, values) in outside {
        for &value in values {
            let mut other = whole.clone();
            other[place] = value;
            list.refused(4, cause, &other)?;
        }
    }
    let mut all = whole;
    all[1..8].fill(0xFF);
    list.refused(4, "every number", &all)?;
    for prev_lag in [i16::MIN, -1, 0, 1, i16::MAX] {
        let mut call = plain(16, 4);
        (call.mode, call.active) = (2, 1);
        call.kept = Kept {
            prev_type: 2,
            prev_lag,
        };
        list.accepted(&input(&call, &packet))?;
    }
    Ok(())
}

/// No packet, zeros and ones, under every size; a frame that its packet leaves off at each byte.
fn packets(list: &mut List<Lister>, rng: &mut Rng) -> Outcome {
    for size in Size::all() {
        let call = plain(size.khz, size.subframes);
        for packet in [&[][..], &[0; 60], &[0xFF; 60]] {
            list.accepted(&input(&call, packet))?;
        }
    }
    let mut call = plain(8, 2);
    call.active = 1;
    let packet = frame(rng, &mut call);
    for length in 0..=packet.len() {
        list.accepted(&input(&call, &packet[..length]))?;
    }
    Ok(())
}

/// Under every choice of numbers a frame by the crate's writers, and bytes at random.
fn choices(list: &mut List<Lister>, rng: &mut Rng) -> Outcome {
    for mut call in indices::Call::all() {
        let packet = frame(rng, &mut call);
        list.accepted(&input(&call, &packet))?;
        let mut noise = vec![0; rng.between(1, 120) as usize];
        rng.fill(&mut noise);
        indices::Read::refill(&mut call, rng);
        list.accepted(&input(&call, &noise))?;
    }
    Ok(())
}

/// A frame under these numbers, side indices and pulses each by the crate's own call.
fn frame(rng: &mut Rng, call: &mut indices::Call) -> Vec<u8> {
    indices::Write::refill(call, rng);
    let mut pulses = pulses::Call::behind(call.size, &call.record);
    pulses::crate_writer::refill(&mut pulses, rng);
    packet(|buffer, writer| {
        let (writer, _) = indices::by_the_crate(call, call.kept.prev_lag, buffer, writer);
        pulses::crate_writer::by_itself(&pulses, buffer, writer)
    })
}

/// Lags by steps at their ends and beside them, from the ends of 16 bits; residuals where they are
/// extended.
fn lags(list: &mut List<Lister>, rng: &mut Rng) -> Outcome {
    for size in Size::all() {
        for (step, residual) in RELATIVE {
            let mut call = relative(rng, size, step, residual);
            let packet = packet(|buffer, writer| {
                indices::by_the_crate(&call, call.kept.prev_lag, buffer, writer).0
            });
            call.kept.prev_lag = if step < 0 { i16::MIN } else { i16::MAX };
            list.accepted(&input(&call, &packet))?;
        }
    }
    Ok(())
}

/// Under every rate level a block of every shift; and the largest magnitudes in every block.
fn shifts(list: &mut List<Lister>, rng: &mut Rng) -> Outcome {
    for rate_level in 0..9 {
        let (given, shifts) = every_shift(rate_level);
        shifted(list, rng, &given, &shifts)?;
    }
    let (mut given, _) = every_shift(8);
    given.call.size = plain(16, 4).size;
    given.call.pulses = [&[-17_407][..], &[-1023; 15]].concat().repeat(20);
    shifted(list, rng, &given, &[10; 20])
}

/// The frame of these pulses, by the crate's pieces at these shifts.
fn shifted(list: &mut List<Lister>, rng: &mut Rng, given: &Levelled, shifts: &[usize]) -> Outcome {
    let pulses = &given.call;
    let mut call = any_frame(rng, pulses.size, 0, pulses.signal_type as i8);
    call.record.offset_type = pulses.offset_type as i8;
    let packet = packet(|buffer, writer| {
        let (writer, _) = indices::by_the_crate(&call, call.kept.prev_lag, buffer, writer);
        pulses::by_the_crate(given, shifts, buffer, writer)
    });
    list.accepted(&input(&call, &packet))
}

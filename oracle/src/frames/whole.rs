//! Whole frames: side indices and pulses that ours writes behind other symbols are read back by ours,
//! by the crate and by libopus.
//!
//! Where the account after the last symbol is at most 8 x length, finishing reports no error; where it
//! reports none, each reader gives back every symbol, record and pulse, and what is kept for the next
//! frame, with the account that the writer had after it.

use super::indices::{self, Kept, Record};
use super::pulses::{self, Levelled};
#[cfg(libopus)]
use super::InLibopus;
use super::{Frame, Given, Left, Size};
use crate::board::{Board, Score, CRATE};
use crate::bytes::Bytes;
use crate::compare::{self, Sides};
use crate::domain::LONGEST;
use crate::hold::{Extent, Outcome};
use crate::models::{Model, FEW};
use crate::ours;
use crate::reader::{self, Reading};
use crate::report;
use crate::rng::Rng;
use crate::roundtrip::accepted;
use crate::state::Reader;
use std::collections::BTreeMap;

const NAME: &str = "packets read back";

/// What is written at once.
#[derive(Debug)]
pub enum Part {
    Symbol(Model<'static>, u32),
    /// With what is kept of it for the next frame.
    Indices(indices::Call, Kept),
    Pulses(Levelled),
}

/// An eighth of the cases: each is up to three frames, written twice and read by each side.
pub fn hold(extent: &Extent, board: &mut Board) {
    let mut rng = Rng::new(extent.seed);
    let (mut tally, mut score) = (Tally::default(), Score::default());
    for _ in 0..extent.cases.div_ceil(8) {
        let parts = parts(&mut rng);
        let round = round(&mut rng, &parts);
        score.outcome(round.map(|(fits, by_account)| tally.count(&parts, fits, by_account)));
    }
    tally.settle(board);
    board.row(
        NAME,
        if cfg!(libopus) {
            "crate, libopus"
        } else {
            CRATE
        },
        &score,
    );
}

/// Whether the parts fit a buffer that most often they just fit, and whether their account says so.
fn round(rng: &mut Rng, parts: &[Part]) -> Result<(bool, bool), String> {
    let mut buffer: Bytes = [0; LONGEST + 1];
    let (accounts, _) = write(&mut buffer[..LONGEST], parts)?;
    let account = accounts.last().copied().unwrap_or(1);
    let length = match rng.between(0, 3) {
        0 => rng.between(0, LONGEST as u32),
        _ => (account / 8 + rng.between(0, 3)).saturating_sub(1),
    };
    let buffer = &mut buffer[..LONGEST.min(length as usize)];
    rng.fill(buffer);
    let (again, error) = write(buffer, parts)?;
    let by_account = account as usize <= 8 * buffer.len();
    if again != accounts || (error != 0 && by_account) {
        return Err(format!(
            "WRITTEN over {length} bytes, error {error}: {parts:?}"
        ));
    }
    if error == 0 {
        read_by_all(buffer, parts, &accounts, rng)?;
    }
    Ok((error == 0, by_account))
}

// ---- what is written

/// One to three frames, other symbols before and behind each.
fn parts(rng: &mut Rng) -> Vec<Part> {
    let mut parts = symbols(rng);
    let sizes: Vec<Size> = Size::all().collect();
    let size = rng.pick(&sizes);
    let mut kept = Kept {
        prev_type: rng.between(0, 2),
        prev_lag: rng.word() as i16,
    };
    for _ in 0..rng.between(1, 3) {
        let mut call = indices::Call {
            size,
            active: rng.between(0, 1),
            mode: rng.between(0, 2),
            record: Record::default(),
            kept,
        };
        indices::Write::refill(&mut call, rng);
        call.kept = kept;
        kept = after(&call);
        let given = any_pulses(rng, size, &call.record);
        parts.extend([Part::Indices(call, kept), Part::Pulses(given)]);
        parts.extend(symbols(rng));
    }
    parts
}

/// "The previous lag changes only in a voiced frame; the previous type always."
fn after(call: &indices::Call) -> Kept {
    Kept {
        prev_type: call.record.signal_type as u32,
        prev_lag: match call.record.signal_type {
            2 => call.record.lag,
            _ => call.kept.prev_lag,
        },
    }
}

fn any_pulses(rng: &mut Rng, size: Size, record: &Record) -> Levelled {
    let mut given = Levelled {
        call: pulses::Call::behind(size, record),
        rate_level: rng.between(0, 8),
    };
    pulses::Write::refill(&mut given, rng);
    while pulses::shifts(&given.call.pulses).is_none() {
        pulses::Write::refill(&mut given, rng);
    }
    given
}

fn symbols(rng: &mut Rng) -> Vec<Part> {
    let any = |rng: &mut Rng| {
        let model = rng.pick(&FEW[..4]);
        Part::Symbol(model, model.any_value(rng))
    };
    (0..rng.between(0, 4)).map(|_| any(rng)).collect()
}

/// The account after each part, and the error that finishing reports.
fn write(buffer: &mut [u8], parts: &[Part]) -> Result<(Vec<u32>, i32), String> {
    let mut state = accepted(ours::enc_open(buffer))?.state;
    let mut accounts = Vec::new();
    for part in parts {
        state = match part {
            Part::Symbol(model, value) => accepted(ours::enc(buffer, state, *model, *value))?.state,
            Part::Indices(call, kept) => {
                let (state, left) = accepted(indices::Write::ours(call, buffer, state))?.state;
                if left != *kept {
                    return Err(format!("KEPT {left:?} of {call:?}"));
                }
                state
            }
            Part::Pulses(given) => accepted(pulses::Write::ours(given, buffer, state))?.state.0,
        };
        accounts.push(accepted(ours::enc_account(buffer, state))?.value);
    }
    let done = accepted(ours::enc_done(buffer, state))?;
    Ok((accounts, done.state.error))
}

// ---- what is read

/// A reader of packets.
struct Side {
    name: &'static str,
    coder: compare::Side<Reading>,
    indices: fn(&indices::Call, &mut [u8], Reader) -> Left<indices::Read>,
    pulses: fn(&pulses::Call, &mut [u8], Reader) -> Left<pulses::Read>,
}

fn sides() -> Vec<Side> {
    vec![
        Side {
            name: "ours",
            coder: Reading::ours,
            indices: |call, packet, reader| indices::Read::ours(call, packet, reader).state,
            pulses: |call, packet, reader| pulses::Read::ours(call, packet, reader).state,
        },
        Side {
            name: "the crate",
            coder: Reading::unopus,
            indices: indices::Read::unopus,
            pulses: pulses::Read::unopus,
        },
        #[cfg(libopus)]
        Side {
            name: "libopus",
            coder: Reading::libopus,
            indices: indices::Read::libopus,
            pulses: pulses::Read::libopus,
        },
    ]
}

/// That each reader gives back these parts, with these accounts after them.
pub fn read_by_all(packet: &mut [u8], parts: &[Part], accounts: &[u32], rng: &mut Rng) -> Outcome {
    sides().iter().try_for_each(|side| {
        let read = read_back(side, packet, parts, accounts, rng);
        read.map_err(|e| format!("READ by {}: {e}: {parts:?}", side.name))
    })
}

fn read_back(
    side: &Side,
    packet: &mut [u8],
    parts: &[Part],
    accounts: &[u32],
    rng: &mut Rng,
) -> Outcome {
    let mut reader = (side.coder)(packet, Reader::default(), reader::Ask::Open).state;
    for (place, (part, &account)) in parts.iter().zip(accounts).enumerate() {
        let (state, same) = read(side, packet, reader, part, rng);
        let told = Reading::unopus(packet, state, reader::Ask::Account).value;
        if !same || told != account {
            return Err(format!(
                "part {place} IS ANOTHER, or its account {told}, not {account}"
            ));
        }
        reader = state;
    }
    match reader.error {
        0 => Ok(()),
        error => Err(format!("READ with error {error}")),
    }
}

/// The state behind a part, and whether it was the part. What the reader is given besides is noise.
fn read(
    side: &Side,
    packet: &mut [u8],
    reader: Reader,
    part: &Part,
    rng: &mut Rng,
) -> (Reader, bool) {
    match part {
        Part::Symbol(model, value) => {
            let answer = (side.coder)(packet, reader, reader::Ask::Read(*model));
            (answer.state, answer.value == *value)
        }
        Part::Indices(call, kept) => {
            let noise = Record::any(rng);
            let given = indices::Call {
                record: noise,
                ..call.clone()
            };
            let (state, left) = (side.indices)(&given, packet, reader);
            let record = call.record.over(&call.ranges(), &noise);
            (state, left == (record, *kept))
        }
        Part::Pulses(given) => {
            let mut call = given.call.clone();
            pulses::Read::refill(&mut call, rng);
            let (state, pulses) = (side.pulses)(&call, packet, reader);
            (state, pulses == given.call.pulses)
        }
    }
}

// ---- what the packets were

#[derive(Default)]
struct Tally {
    by_account: u64,
    beyond: u64,
    lost: u64,
    /// Of the frames that were read back, by their numbers.
    indices: BTreeMap<[u32; 5], u64>,
    pulses: BTreeMap<[u32; 5], u64>,
    /// Voiced frames after a voiced one, conditional.
    after_zero: u64,
    /// Frames with a pulse of 17,407.
    largest: u64,
    symbols: u64,
}

impl Tally {
    fn count(&mut self, parts: &[Part], fits: bool, by_account: bool) {
        self.by_account += u64::from(by_account);
        self.beyond += u64::from(fits && !by_account);
        self.lost += u64::from(!fits);
        for part in parts.iter().filter(|_| fits) {
            match part {
                Part::Symbol(..) => self.symbols += 1,
                Part::Indices(call, _) => {
                    *self.indices.entry(call.numbers()).or_default() += 1;
                    let voiced = call.record.signal_type == 2;
                    self.after_zero += u64::from(voiced && call.delta_is_due());
                }
                Part::Pulses(given) => {
                    *self.pulses.entry(given.numbers()).or_default() += 1;
                    let largest = given.call.pulses.iter().any(|p| p.abs() == 17_407);
                    self.largest += u64::from(largest);
                }
            }
        }
    }

    fn settle(&self, board: &mut Board) {
        let counts = [
            ("fit by their account", self.by_account),
            ("fit though it is above 8 x length", self.beyond),
            ("do not fit", self.lost),
            ("frames read back", self.indices.values().sum()),
            ("lags after symbol 0", self.after_zero),
            ("frames with 17,407", self.largest),
            ("other symbols", self.symbols),
        ];
        board.note(format!("{NAME}: {}", report::counts(counts.into_iter())));
        let indices = indices::Call::all().into_iter().map(|call| call.numbers());
        let indices = indices.filter(|numbers| !self.indices.contains_key(numbers));
        let pulses = Levelled::all().into_iter().map(|given| given.numbers());
        let pulses = pulses.filter(|numbers| !self.pulses.contains_key(numbers));
        let settings = indices.map(|n| format!("side indices of {n:?}"));
        let settings = settings.chain(pulses.map(|n| format!("pulses of {n:?}")));
        let missing = counts.into_iter().filter(|(_, n)| *n == 0);
        let missing = missing.map(|(name, _)| name.to_string());
        board.covered(NAME, missing.chain(settings));
    }
}

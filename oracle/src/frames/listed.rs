//! The list that crates/frames_cases replays.

use super::indices::{self, Kept, Record};
use super::pulses::{self, Levelled};
use super::tally::Tally;
use super::written::{any_frame, every_shift, packet, relative, RELATIVE};
use super::{plans, Frame, Given, Put, Size, StateOf};
use crate::coder::Coder;
use crate::compare::Sides;
use crate::hold::Outcome;
use crate::reader::Reading;
use crate::record::{calls, Files, Recording, Records};
use crate::report;
use crate::rng::Rng;
use crate::state::State;
use crate::writer::{Ask, Writing};

/// The list, the same every time.
pub fn files() -> Result<Files, String> {
    let (mut records, mut rng) = (Records::default(), Rng::new(0));
    let calls = [
        (
            "read indices",
            list::<indices::Read>(&mut records, &mut rng)?,
        ),
        ("read pulses", list::<pulses::Read>(&mut records, &mut rng)?),
        (
            "write indices",
            list::<indices::Write>(&mut records, &mut rng)?,
        ),
        (
            "write pulses",
            list::<pulses::Write>(&mut records, &mut rng)?,
        ),
    ];
    Ok(Files::new(records, &calls))
}

/// A call on a frame that is on the list.
trait Listed: Frame {
    /// Its number in the records.
    const CALL: u8;
    /// So many calls at random under each choice of numbers, of which every so manieth is taken.
    const FEW: (u64, usize);

    /// Calls of its own, besides those at random and those that are refused.
    fn own(rng: &mut Rng, put: &mut Put<Self>) -> Outcome;
    /// What the call is given besides the numbers, in bytes.
    fn given(call: &Self::Given) -> Vec<u8>;
    /// What it hands back besides the state, in bytes.
    fn left(held: &Self::Held) -> Vec<u8>;
}

/// How many calls of the kind there are.
fn list<C: Listed>(records: &mut Records, rng: &mut Rng) -> Result<u64, String> {
    let mut tally = Tally::<C>::default();
    let mut put = |bytes: &mut [u8], state, call: &C::Given| {
        record(records, &mut tally, bytes, state, call);
        Ok(())
    };
    let (each, step) = C::FEW;
    let choices = C::Given::all().into_iter().step_by(step);
    plans::accepted::<C>(rng, choices.collect(), each, &mut put)?;
    C::own(rng, &mut put)?;
    plans::refused_in_short::<C>(rng, &mut put)?;
    report::complete(tally.missing(C::REFUSALS))?;
    Ok(tally.all())
}

/// Writes the call down as the crate answers it behind document 01's table.
fn record<C: Listed>(
    records: &mut Records,
    tally: &mut Tally<C>,
    bytes: &mut [u8],
    state: StateOf<C>,
    call: &C::Given,
) {
    let before = bytes.to_vec();
    let answer = tally.of_the_crate(bytes, state, call);
    let (after, held) = &answer.state;
    records.call(&Recording {
        call: C::CALL,
        bytes: (&before, bytes),
        states: (state.words(), after.words()),
        answer: [answer.refusal, answer.value],
        numbers: &call.numbers(),
        rest: &[C::given(call), C::left(held)].concat(),
    });
}

// ---- side indices

impl Listed for indices::Read {
    const CALL: u8 = calls::READ_INDICES;
    const FEW: (u64, usize) = (2, 1);

    /// Every size; lags by steps at their ends and beside them, from the ends of 16 bits; residuals where
    /// they are extended.
    fn own(rng: &mut Rng, put: &mut Put<Self>) -> Outcome {
        for size in Size::all() {
            for (step, residual) in RELATIVE {
                let written = relative(rng, size, step, residual);
                let mut packet = packet(|buffer, writer| {
                    indices::by_the_crate(&written, written.kept.prev_lag, buffer, writer).0
                });
                let fresh = Reading::unopus(&mut packet, State::default(), Reading::open()).state;
                for prev_lag in [i16::MIN, i16::MAX] {
                    let mut call = written.clone();
                    call.record = Record::any(rng);
                    call.kept.prev_lag = prev_lag;
                    put(&mut packet, fresh, &call)?;
                }
            }
        }
        Ok(())
    }

    fn given(call: &indices::Call) -> Vec<u8> {
        let lag = call.kept.prev_lag.to_le_bytes();
        [record_bytes(&call.record), lag.to_vec()].concat()
    }

    fn left((record, kept): &(Record, Kept)) -> Vec<u8> {
        [record_bytes(record), kept_bytes(kept)].concat()
    }
}

impl Listed for indices::Write {
    const CALL: u8 = calls::WRITE_INDICES;
    const FEW: (u64, usize) = (1, 1);

    /// Each field that a frame of each size reads, beside both ends of its range.
    fn own(rng: &mut Rng, put: &mut Put<Self>) -> Outcome {
        let buffer = &mut [0x5A; 40];
        let fresh = Writing::unopus(buffer, State::default(), Ask::Open).state;
        for (size, (mode, signal_type)) in Size::all().zip(MODES_AND_TYPES) {
            let call = any_frame(rng, size, mode, signal_type);
            for record in call.with_each(|least, most| vec![least - 1, most + 1]) {
                let call = indices::Call {
                    record,
                    ..call.clone()
                };
                put(&mut buffer.clone(), fresh, &call)?;
            }
        }
        Ok(())
    }

    fn given(call: &indices::Call) -> Vec<u8> {
        let lag = call.kept.prev_lag.to_le_bytes();
        [record_bytes(&call.record), lag.to_vec()].concat()
    }

    fn left(kept: &Kept) -> Vec<u8> {
        kept_bytes(kept)
    }
}

/// For each size.
const MODES_AND_TYPES: [(u32, i8); 6] = [(1, 2), (0, 0), (2, 1), (2, 2), (0, 2), (1, 1)];

fn record_bytes(record: &Record) -> Vec<u8> {
    let fields = record.fields().into_iter().enumerate();
    let bytes = fields.map(|(place, field)| match place {
        indices::LAG => field.to_le_bytes().to_vec(),
        _ => vec![field as u8],
    });
    bytes.collect::<Vec<_>>().concat()
}

fn kept_bytes(kept: &Kept) -> Vec<u8> {
    [
        &kept.prev_type.to_le_bytes()[..],
        &kept.prev_lag.to_le_bytes(),
    ]
    .concat()
}

// ---- pulses

impl Listed for pulses::Read {
    const CALL: u8 = calls::READ_PULSES;
    const FEW: (u64, usize) = (2, 1);

    /// Every rate level; in each frame a block of every shift, and some of low bits alone.
    fn own(rng: &mut Rng, put: &mut Put<Self>) -> Outcome {
        for rate_level in 0..9 {
            let (given, shifts) = every_shift(rate_level);
            let mut packet =
                packet(|buffer, writer| pulses::by_the_crate(&given, &shifts, buffer, writer));
            let fresh = Reading::unopus(&mut packet, State::default(), Reading::open()).state;
            let mut call = given.call;
            pulses::Read::refill(&mut call, rng);
            put(&mut packet, fresh, &call)?;
        }
        Ok(())
    }

    fn given(call: &pulses::Call) -> Vec<u8> {
        pulse_bytes(&call.pulses)
    }

    fn left(pulses: &Vec<i16>) -> Vec<u8> {
        pulse_bytes(pulses)
    }
}

impl Listed for pulses::Write {
    const CALL: u8 = calls::WRITE_PULSES;
    // Every rate level with every choice of the other numbers would be 324.
    const FEW: (u64, usize) = (1, 5);

    /// Blocks at the limits of every shift, at every place of the shortest frame.
    fn own(_: &mut Rng, put: &mut Put<Self>) -> Outcome {
        let buffer = &mut [0x5A; 100];
        let fresh = Writing::unopus(buffer, State::default(), Ask::Open).state;
        let shortest = Levelled::all();
        for (number, block) in pulses::limit_blocks().into_iter().enumerate() {
            let mut given = shortest[number % 54].clone();
            let place = 16 * (number % 5);
            given.call.pulses[place..place + 16].copy_from_slice(&block);
            put(&mut buffer.clone(), fresh, &given)?;
        }
        Ok(())
    }

    fn given(given: &Levelled) -> Vec<u8> {
        pulse_bytes(&given.call.pulses)
    }

    fn left((): &()) -> Vec<u8> {
        vec![]
    }
}

fn pulse_bytes(pulses: &[i16]) -> Vec<u8> {
    pulses
        .iter()
        .flat_map(|pulse| pulse.to_le_bytes())
        .collect()
}

//! Which calls are compared, besides those that the reader's plans have too.

use super::states::{at_digit, breaks, sound};
use super::{Ask, Writing};
use crate::bytes::{Bytes, FILLS, LENGTHS};
use crate::coder::{along, at_limits, each_in_turn, on_unsound, speech, Coder};
use crate::compare::{Answer, Sink};
use crate::domain::{LAST_TOTAL, LONGEST, LONGEST_RUN, TOTALS};
use crate::hold::{Outcome, Plan, Plans};
use crate::models::{self, Entries, Model};
use crate::rng::Rng;
use crate::state::Writer;
use crate::states::Break;

impl Plans for Writing {
    const PLANS: &'static [Plan<Writing>] = &[
        (
            "along buffers of every length from their opening past their finish",
            |sink, rng, extent| {
                listed(sink)?;
                let lengths = (0..=LONGEST + 1).step_by(extent.share as usize);
                along(sink, rng, lengths, 300)
            },
        ),
        (
            "along buffers by the tables of speech",
            |sink, rng, extent| speech(sink, rng, 3_000 / extent.share),
        ),
        ("along buffers while the run of 255s grows", |sink, _, _| {
            long_runs(sink, &[3, LONGEST])
        }),
        (
            "along a buffer until its total refuses more",
            |sink, rng, _| to_the_end(sink, rng),
        ),
        (
            "where a run is stored and where a finish all but fits",
            |sink, rng, extent| {
                runs(sink, &[0, 3, LONGEST])?;
                finishes(sink, rng, extent.cases)
            },
        ),
        ("each on arbitrary sound states", |sink, rng, extent| {
            each_in_turn(sink, rng, extent.cases)
        }),
        ("on states that break one rule", |sink, rng, _| {
            on_unsound(sink, rng, &LENGTHS, models::at_limits())
        }),
        (
            "at the limits of buffers, totals, numbers, tables and values",
            |sink, rng, extent| {
                let (buffers, models) = ((&LENGTHS[..], &FILLS[..]), models::at_limits());
                extent
                    .rounds(4)
                    .try_for_each(|_| at_limits(sink, rng, buffers, &TOTALS, models))
            },
        ),
    ];
}

impl Coder for Writing {
    type Word = i32;

    fn open() -> Ask<'static> {
        Ask::Open
    }

    fn any<'a>(rng: &mut Rng, model: Model<'a>) -> Ask<'a> {
        Ask::Write(model, model.any_value(rng))
    }

    fn all<'a>(models: &'a [Model<'a>]) -> Vec<Ask<'a>> {
        let values = |&model: &Model<'a>| model.limit_values().into_iter().map(move |v| (model, v));
        let writes = models.iter().flat_map(values);
        let writes = writes.map(|(model, value)| Ask::Write(model, value));
        writes.chain(Self::ends()).collect()
    }

    fn ends() -> Vec<Ask<'static>> {
        vec![Ask::Account, Ask::Done { again: false }]
    }

    fn any_end(rng: &mut Rng) -> Option<Ask<'static>> {
        match rng.between(0, 15) {
            0 => Some(Ask::Account),
            1..=4 => Some(Ask::Done { again: false }),
            _ => None,
        }
    }

    fn sound(rng: &mut Rng, length: usize) -> Writer {
        sound(rng, length)
    }

    fn breaks() -> impl Iterator<Item = Break<i32>> {
        breaks()
    }

    fn to_border(rng: &mut Rng, writer: &mut Writer, ask: Ask) {
        if let Ask::Write(model, value) = ask {
            at_digit(rng, writer, model, value);
        }
    }

    fn at_limit(_: &mut Rng, _: &mut Writer, _: Ask) {}

    /// Until the buffer is all but full, full, or past that; then it is finished, finished again,
    /// written to and finished.
    fn go_on(
        sink: &mut dyn Sink<Writing>,
        rng: &mut Rng,
        buffer: &mut [u8],
        fresh: Answer<Writer>,
        bits_more: u32,
    ) -> Outcome {
        let mut answer = fresh;
        let full = 8 * buffer.len() as u32 + 33;
        let used = match rng.between(0, 2) {
            0 => rng.between(33, full),
            1 => rng.between(full - 24, full + 16),
            _ => rng.between(full, full + bits_more),
        };
        let limits = models::at_limits();
        while answer.refusal != 1 && answer.state.nbits_total < used {
            answer = write_any(sink, rng, buffer, answer.state, limits)?;
        }
        answer = sink.put(buffer, answer.state, Ask::Done { again: false })?;
        answer = sink.put(buffer, answer.state, Ask::Done { again: true })?;
        for _ in 0..3 {
            answer = write_any(sink, rng, buffer, answer.state, limits)?;
        }
        sink.put(buffer, answer.state, Ask::Done { again: false })?;
        Ok(())
    }
}

/// The cases of document 01 that are run.
pub fn listed(sink: &mut dyn Sink<Writing>) -> Outcome {
    let mut four = [0xA5; 4];
    let mut state = sink.put(&mut four, Writer::default(), Ask::Open)?.state;
    let symbols = [
        (Model::Bit(15), 0),
        (Model::Number(256), 1),
        (Model::Bit(9), 1),
    ];
    for (model, value) in symbols {
        state = sink.put(&mut four, state, Ask::Write(model, value))?.state;
    }
    let next = sink.put(&mut four, state, Ask::Write(Model::Bit(1), 0))?;
    let last = sink.put(&mut four, state, Ask::Write(Model::Bits(25), 0))?;
    let past = sink.put(&mut four, state, Ask::Write(Model::Bits(26), 0))?;
    let (mut longest, mut longer) = ([0xA5; LONGEST], [0xA5; LONGEST + 1]);
    let most = sink.put(&mut longest, Writer::default(), Ask::Open)?;
    let more = sink.put(&mut longer, Writer::default(), Ask::Open)?;
    let refusals = [next, last, past, most, more].map(|answer| answer.refusal);
    if state.rem == 255 && refusals == [0, 0, 4, 0, 1] {
        return Ok(());
    }
    Err(format!(
        "document 01's cases: {state:?}, refusals {refusals:?}"
    ))
}

/// A symbol at random, at times one at a limit, and at times the account after it.
fn write_any(
    sink: &mut dyn Sink<Writing>,
    rng: &mut Rng,
    buffer: &mut [u8],
    writer: Writer,
    limits: &[Model],
) -> Result<Answer<Writer>, String> {
    let mut entries: Entries = [0; 257];
    let (model, value) = if rng.one_in(40) {
        let model = rng.pick(limits);
        (model, rng.pick(&model.limit_values()))
    } else {
        let seen = rng.any_width();
        let model = models::any(rng, &mut entries, seen);
        (model, model.any_value(rng))
    };
    let answer = sink.put(buffer, writer, Ask::Write(model, value))?;
    if rng.one_in(8) {
        sink.put(buffer, answer.state, Ask::Account)?;
    }
    Ok(answer)
}

/// Buffers of these lengths, where each symbol leaves open whether a carry comes, until one more is
/// all that the total allows: one that carries, one that does not, or the finish.
pub fn long_runs(sink: &mut dyn Sink<Writing>, lengths: &[usize]) -> Outcome {
    let mut buffer: Bytes = [0xA5; LONGEST + 1];
    for (&length, last) in lengths
        .iter()
        .flat_map(|n| [-1, 0, 1].map(|last| (n, last)))
    {
        let buffer = &mut buffer[..length];
        let mut answer = sink.put(buffer, Writer::default(), Ask::Open)?;
        for (model, value) in [(Model::Bit(15), 0), (Model::Number(256), 1)] {
            answer = sink.put(buffer, answer.state, Ask::Write(model, value))?;
        }
        while answer.state.nbits_total <= LAST_TOTAL - 8 {
            let (model, value) = across_the_carry(&answer.state);
            answer = sink.put(buffer, answer.state, Ask::Write(model, value))?;
        }
        if last != 0 {
            let (model, value) = across_the_carry(&answer.state);
            let beside = value.wrapping_add_signed(last);
            answer = sink.put(buffer, answer.state, Ask::Write(model, beside))?;
        }
        sink.put(buffer, answer.state, Ask::Done { again: false })?;
    }
    Ok(())
}

/// A symbol whose part has numbers on both sides of the carry.
fn across_the_carry(writer: &Writer) -> (Model<'static>, u32) {
    let across = |total| {
        let model = Model::Number(total);
        let before = |value: &u32| writer.val + model.start(writer.rng, *value) < 1 << 31;
        let value = (0..total).rev().find(before)?;
        let end = writer.val + model.start(writer.rng, value) + model.unit(writer.rng);
        (end > 1 << 31).then_some((model, value))
    };
    let totals = (2..=256).rev();
    totals.filter_map(across).next().unwrap()
}

/// One buffer, written to from its opening until its bit total refuses the next call.
pub fn to_the_end(sink: &mut dyn Sink<Writing>, rng: &mut Rng) -> Outcome {
    let mut buffer: Bytes = [0; LONGEST + 1];
    let buffer = &mut buffer[..LONGEST];
    rng.fill(buffer);
    let few = [Model::Bit(1)];
    let mut answer = sink.put(buffer, Writer::default(), Ask::Open)?;
    while answer.state.nbits_total <= LAST_TOTAL {
        answer = write_any(sink, rng, buffer, answer.state, &few)?;
    }
    let refused = write_any(sink, rng, buffer, answer.state, &few)?;
    let done = sink.put(buffer, answer.state, Ask::Done { again: false })?;
    match (refused.refusal, done.refusal) {
        (3, 3) => Ok(()),
        refusals => Err(format!("past the last total: {refusals:?}")),
    }
}

/// Runs, short and as long as sound ones can be, that the next digit stores or makes longer.
pub fn runs(sink: &mut dyn Sink<Writing>, lengths: &[usize]) -> Outcome {
    let mut buffer: Bytes = [0xA5; LONGEST + 1];
    let asks = [Ask::Write(Model::Bit(1), 0), Ask::Done { again: false }];
    for (&length, ext) in lengths
        .iter()
        .flat_map(|n| [1, 2, 124_996, LONGEST_RUN].map(|ext| (n, ext)))
    {
        let buffer = &mut buffer[..length];
        let fresh = sink.put(buffer, Writer::default(), Ask::Open)?.state;
        for (digit, rem) in [254, 255, 256, 510]
            .into_iter()
            .flat_map(|digit| [-1, 0, 255].map(|rem| (digit, rem)))
        {
            let writer = Writer {
                rng: (1 << 23) + 2,
                val: digit << 23,
                ext,
                rem,
                nbits_total: LAST_TOTAL,
                ..fresh
            };
            for ask in asks {
                sink.put(buffer, writer, ask)?;
            }
        }
    }
    Ok(())
}

/// Writers without error over a few bytes, whose finish just fits or just does not; of some, all that
/// was written is raw bits.
pub fn finishes(sink: &mut dyn Sink<Writing>, rng: &mut Rng, calls: u64) -> Outcome {
    let mut buffer: Bytes = [0; LONGEST + 1];
    for _ in 0..calls {
        let length = rng.between(0, 7) as usize;
        let buffer = &mut buffer[..length];
        rng.fill(buffer);
        let mut writer = sound(rng, length);
        writer.nbits_total = LAST_TOTAL;
        writer.ext = rng.pick(&[0, 0, 0, 1, 2]);
        writer.error = 0;
        if rng.one_in(4) {
            (writer.rng, writer.val) = (1 << 31, 0);
            (writer.ext, writer.rem) = (0, -1);
            (writer.offs, writer.end_offs) = (0, rng.between(0, length as u32));
        }
        sink.put(buffer, writer, Ask::Done { again: false })?;
    }
    Ok(())
}

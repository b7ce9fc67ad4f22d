//! Writing side indices.

use super::crate_writer::by_the_crate;
use super::record_ways::{record_ways, WAYS};
use super::{Call, Kept, Record};
use crate::bytes::Bytes;
use crate::compare::Answer;
use crate::domain::{indices_written_refusal, LONGEST};
use crate::frames::{plans, Frame, Given, Left, Put};
use crate::hold::Outcome;
use crate::ours;
use crate::rng::Rng;
use crate::state::Writer;
use crate::ways::ways;
use crate::writer::Writing;

/// include/tignarops.h
#[repr(C)]
pub struct IndicesWritten {
    pub refusal: u32,
    pub state: Writer,
    pub prev_type: u32,
    pub prev_lag: i16,
}

/// Writing side indices, as a call on a frame.
pub struct Write;

ways! { Way, OWN_WAYS:
    Absolute "lag absolute",
    AfterZero "after symbol 0",
    Near "after symbol 0 where the crate's own writer codes it relative",
    NotRead "field out of its range that the frame does not read",
    Full "no room",
}

impl Frame for Write {
    type Coder = Writing;
    type Given = Call;
    type Held = Kept;

    const NAME: &'static str = "tg_encode_indices";
    const WAYS: &'static [&'static [&'static str]] = &[WAYS, OWN_WAYS];
    const REFUSALS: &'static [usize] = &[1, 2, 3, 4, 8];

    fn refill(call: &mut Call, rng: &mut Rng) {
        call.record = Record::any(rng);
        call.any_prev_lag(rng);
        call.fit(rng);
        if rng.one_in(2) {
            let near = rng.between(0, 24) as i16 - 12;
            call.kept.prev_lag = call.record.lag.wrapping_add(near);
        }
    }

    fn at_limits(rng: &mut Rng, share: u32, put: &mut Put<Write>) -> Outcome {
        let mut bytes: Bytes = [0; LONGEST + 1];
        rng.fill(&mut bytes);
        let rounds = (16 / share).max(1);
        for mut call in Call::all()
            .into_iter()
            .flat_map(|call| vec![call; rounds as usize])
        {
            let length = rng.or_end(0, LONGEST as u32) as usize;
            let state = plans::any_state::<Writing>(rng, &mut bytes[..length]);
            Write::refill(&mut call, rng);
            for record in call.with_each(around) {
                let call = Call {
                    record,
                    ..call.clone()
                };
                put(&mut bytes[..length], state, &call)?;
            }
        }
        Ok(())
    }

    fn held(call: &Call) -> Kept {
        call.kept
    }

    fn refusal(call: &Call, buffer: &[u8], writer: &Writer) -> u32 {
        indices_written_refusal(buffer, writer, call)
    }

    fn ours(call: &Call, buffer: &mut [u8], writer: Writer) -> Answer<Left<Write>> {
        let written = ours::encode_indices(buffer, writer, call);
        let kept = Kept {
            prev_type: written.prev_type,
            prev_lag: written.prev_lag,
        };
        Answer {
            refusal: written.refusal,
            value: 0,
            state: (written.state, kept),
        }
    }

    /// Document 01's writer codes no lag relative to another: where the crate's would, it is given a
    /// previous lag too far for that.
    fn unopus(call: &Call, buffer: &mut [u8], writer: Writer) -> Left<Write> {
        let prev_lag = match call.record.signal_type == 2 && near(call) {
            true => i16::MAX,
            false => call.kept.prev_lag,
        };
        by_the_crate(call, prev_lag, buffer, writer)
    }

    fn took(
        call: &Call,
        _: &mut [u8],
        before: Writer,
        (after, _): &Left<Write>,
        mut mark: impl FnMut(usize, bool),
    ) {
        record_ways(call, &call.record, &mut mark);
        let mut mark = |way: Way, taken| mark(WAYS.len() + way as usize, taken);
        let (due, voiced) = (call.delta_is_due(), call.record.signal_type == 2);
        mark(Way::Absolute, voiced && !due);
        mark(Way::AfterZero, voiced && due);
        mark(Way::Near, voiced && due && near(call));
        mark(Way::NotRead, !voiced && call.record.lag < 0);
        mark(Way::Full, before.error == 0 && after.error == -1);
    }
}

/// The ends of a range, beside them and far out.
fn around(least: i16, most: i16) -> Vec<i16> {
    let (low, high) = (i8::MIN.into(), i8::MAX.into());
    vec![
        least,
        most,
        least - 1,
        most + 1,
        low,
        high,
        i16::MIN,
        i16::MAX,
    ]
}

/// Whether the crate's own writer codes a lag relative to this one.
fn near(call: &Call) -> bool {
    let step = i32::from(call.record.lag) - i32::from(call.kept.prev_lag);
    (-8..=11).contains(&step)
}

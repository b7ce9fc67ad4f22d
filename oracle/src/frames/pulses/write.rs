//! Writing pulses.

use super::blocks::{blocks, by_the_crate, magnitude, shifts};
use super::pulse_ways::{pulse_ways, WAYS};
use super::{Call, Levelled};
use crate::bytes::Bytes;
use crate::compare::Answer;
use crate::domain::{pulses_written_refusal, LONGEST};
#[cfg(libopus)]
use crate::frames::{libopus, InLibopus};
use crate::frames::{plans, Change, Frame, Given, Left, Put, Size};
use crate::hold::Outcome;
use crate::ours;
use crate::rng::Rng;
use crate::state::Writer;
use crate::ways::ways;
use crate::writer::Writing;

impl Given for Levelled {
    fn all() -> Vec<Levelled> {
        let levels = |call: Call| {
            (0..9).map(move |rate_level| Levelled {
                call: call.clone(),
                rate_level,
            })
        };
        Call::all().into_iter().flat_map(levels).collect()
    }

    fn numbers(&self) -> [u32; 5] {
        let mut numbers = self.call.numbers();
        numbers[4] = self.rate_level;
        numbers
    }

    fn size(&mut self) -> &mut Size {
        self.call.size()
    }

    fn outside() -> Vec<Change<Levelled>> {
        let calls = Call::outside().into_iter();
        let calls =
            calls.map(|change| -> Change<Levelled> { Box::new(move |l| change(&mut l.call)) });
        let levels: [Change<Levelled>; 2] = [
            Box::new(|l| l.rate_level = 9),
            Box::new(|l| l.rate_level = u32::MAX),
        ];
        calls.chain(levels).collect()
    }
}

/// Writing pulses, as a call on a frame.
pub struct Write;

ways! { Way, OWN_WAYS:
    Full "no room",
    Edge "block that no smaller shift fits by one",
}

const SHIFTS: &[&str] = &["shift 0", "1", "2", "3", "4", "5", "6", "7", "8", "9", "10"];

const COUNTS: &[&str] = &[
    "count 0", "1", "2", "3", "4", "5", "6", "7", "8", "9", "10", "11", "12", "13", "14", "15",
    "16",
];

/// Where the own ways start in all lists of ways.
const OWN: usize = WAYS.len() + SHIFTS.len() + COUNTS.len();

impl Frame for Write {
    type Coder = Writing;
    type Given = Levelled;
    type Held = ();

    const NAME: &'static str = "tg_encode_pulses";
    const WAYS: &'static [&'static [&'static str]] = &[WAYS, SHIFTS, COUNTS, OWN_WAYS];
    const REFUSALS: &'static [usize] = &[1, 2, 3, 4, 6, 8];

    fn refill(given: &mut Levelled, rng: &mut Rng) {
        for block in given.call.pulses.chunks_mut(16) {
            any_block(rng, block);
        }
    }

    fn at_limits(rng: &mut Rng, share: u32, put: &mut Put<Write>) -> Outcome {
        let mut bytes: Bytes = [0; LONGEST + 1];
        rng.fill(&mut bytes);
        for mut given in Levelled::all().into_iter().step_by(share as usize) {
            for block in limit_blocks() {
                let length = rng.or_end(0, LONGEST as u32) as usize;
                let bytes = &mut bytes[..length];
                let state = plans::any_state::<Writing>(rng, bytes);
                let pulses = &mut given.call.pulses;
                pulses.fill(0);
                let place = 16 * rng.between(0, pulses.len() as u32 / 16 - 1) as usize;
                pulses[place..place + 16].copy_from_slice(&block);
                put(bytes, state, &given)?;
            }
        }
        Ok(())
    }

    fn held(_: &Levelled) {}

    fn refusal(given: &Levelled, buffer: &[u8], writer: &Writer) -> u32 {
        pulses_written_refusal(buffer, writer, given)
    }

    fn ours(given: &Levelled, buffer: &mut [u8], writer: Writer) -> Answer<Left<Write>> {
        let answer = ours::encode_pulses(buffer, writer, given);
        Answer {
            refusal: answer.refusal,
            value: answer.value,
            state: (answer.state, ()),
        }
    }

    fn unopus(given: &Levelled, buffer: &mut [u8], writer: Writer) -> Left<Write> {
        let shifts = shifts(&given.call.pulses).unwrap();
        (by_the_crate(given, &shifts, buffer, writer), ())
    }

    fn took(
        given: &Levelled,
        _: &mut [u8],
        before: Writer,
        (after, ()): &Left<Write>,
        mut mark: impl FnMut(usize, bool),
    ) {
        let pulses = &given.call.pulses;
        let blocks = blocks(pulses, &shifts(pulses).unwrap());
        let shapes = blocks.iter().map(|b| ((b.shift, b.count), b.pulses));
        pulse_ways(given.rate_level as usize, shapes, &mut mark);
        for block in &blocks {
            mark(WAYS.len() + block.shift, true);
            mark(WAYS.len() + SHIFTS.len() + block.count as usize, true);
            let doubled = block.pulses.iter().map(|&p| magnitude(p) << 1);
            let below: u32 = doubled.map(|magnitude| magnitude >> block.shift).sum();
            mark(OWN + Way::Edge as usize, block.shift > 0 && below == 17);
        }
        let full = before.error == 0 && after.error == -1;
        mark(OWN + Way::Full as usize, full);
    }
}

#[cfg(libopus)]
impl InLibopus for Write {
    fn libopus(given: &Levelled, buffer: &mut [u8], writer: Writer) -> Left<Write> {
        let shifts = shifts(&given.call.pulses).unwrap();
        (libopus::write_pulses(given, &shifts, buffer, writer), ())
    }
}

// ---- blocks

/// A block of any shift and count, now and then one that has none.
fn any_block(rng: &mut Rng, block: &mut [i16]) {
    block.fill(0);
    let shift = rng.or_end(0, 10);
    let units = rng.or_end(0, 16);
    let together = rng.one_in(4).then(|| rng.between(0, 15));
    for _ in 0..units {
        let place = together.unwrap_or_else(|| rng.between(0, 15));
        block[place as usize] += 1 << shift;
    }
    let (kind, lows) = (rng.between(0, 2), (1 << shift) - 1);
    for pulse in block.iter_mut() {
        *pulse += match kind {
            0 => 0,
            1 => lows,
            _ => rng.between(0, lows as u32) as i16,
        };
    }
    if rng.one_in(400) {
        block[0] = rng.word() as i16;
    }
    let minus = rng.pick(&[1, 2, 2, u32::MAX]);
    for pulse in block.iter_mut().filter(|_| rng.one_in(minus)) {
        *pulse = pulse.wrapping_neg();
    }
}

/// At each shift, a total of 16 and of one more, on one place and on all, with all low bits and none;
/// and the ends of 16 bits.
pub fn limit_blocks() -> Vec<[i16; 16]> {
    let mut blocks = vec![];
    let mut alone = |pulse: i32, place: usize| {
        let mut block = [0; 16];
        block[place] = pulse as i16;
        blocks.push(block);
    };
    for shift in 0..=10 {
        for magnitude in [16 << shift, (17 << shift) - 1, 17 << shift] {
            alone(magnitude, shift);
            alone(-magnitude, 15 - shift);
        }
    }
    alone(i16::MIN.into(), 3);
    alone((i16::MIN + 1).into(), 7);
    alone(i16::MAX.into(), 11);
    for shift in 0..=10 {
        let mut block = [1 << shift; 16];
        blocks.push(block);
        block[shift] += (1 << shift) - 1;
        blocks.push(block);
        block[15 - shift] = -2 << shift;
        blocks.push(block);
    }
    blocks
}

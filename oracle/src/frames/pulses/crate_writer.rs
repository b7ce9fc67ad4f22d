//! The crate's own writing of pulses. It picks the rate level by the bits that it costs, and larger
//! shifts than document 01's where a part of a block is too full; on frames where it does not, ours
//! writes the same under the same level.

use super::blocks::{magnitude, shifts};
use super::{Call, Levelled, Write};
use crate::board::{Board, Score};
use crate::bytes::Bytes;
use crate::domain::{LAST_TOTAL, LONGEST};
use crate::frames::{plans, Frame, Given};
use crate::hold::Extent;
use crate::rng::Rng;
use crate::silk::encode_pulses::silk_encode_pulses;
use crate::silk::tables_pulses_per_block::silk_max_pulses_table;
use crate::state::Writer;
use crate::writer::Writing;

/// With whom it is compared.
const OWN_WRITER: &str = "crate's writer";

/// An eighth of the cases: each takes up to nine writings.
pub fn hold(extent: &Extent, board: &mut Board) {
    let (mut score, mut rng) = (Score::default(), Rng::new(extent.seed));
    let (mut levels, mut shifted) = ([0_u64; 9], 0_u64);
    let mut bytes: Bytes = [0; LONGEST + 1];
    let calls = Call::all();
    let each = extent.cases.div_ceil(8 * calls.len() as u64);
    for mut call in calls {
        for _ in 0..each {
            refill(&mut call, &mut rng);
            let length = rng.between(0, 400) as usize;
            let bytes = &mut bytes[..length];
            let mut state = plans::any_state::<Writing>(&mut rng, bytes);
            state.nbits_total = state.nbits_total.min(LAST_TOTAL);
            let level = level(&call, bytes, state);
            score.outcome(level.map(|level| levels[level] += 1));
            shifted += u64::from(call.pulses.iter().any(|&pulse| magnitude(pulse) > 16));
        }
    }
    let what = format!("{}, {OWN_WRITER}", Write::NAME);
    board.note(format!(
        "{what}: with low bits {shifted}, rate levels {levels:?}"
    ));
    board.row(Write::NAME, OWN_WRITER, &score);
    let missing = levels.iter().enumerate().filter(|(_, &n)| n == 0);
    board.covered(
        &what,
        missing.map(|(level, _)| format!("rate level {level}")),
    );
}

/// The rate level under which ours leaves the crate's bytes and state.
fn level(call: &Call, bytes: &[u8], state: Writer) -> Result<usize, String> {
    let mut their_bytes = bytes.to_vec();
    let theirs = by_itself(call, &mut their_bytes, state);
    let same = |&rate_level: &u32| {
        let mut our_bytes = bytes.to_vec();
        let given = Levelled {
            call: call.clone(),
            rate_level,
        };
        let ours = Write::ours(&given, &mut our_bytes, state);
        (ours.refusal, ours.state.0) == (0, theirs) && our_bytes == their_bytes
    };
    let found = (0..9).find(same).map(|level| level as usize);
    found.ok_or_else(|| format!("DIFFER at every rate level: {call:?}\n    on {state:?}"))
}

/// The crate's own call, on pulses of 8 bits.
pub fn by_itself(call: &Call, buffer: &mut [u8], writer: Writer) -> Writer {
    let mut ctx = writer.beside(buffer);
    let (signal, offset) = (call.signal_type as i32, call.offset_type as i32);
    let mut small: Vec<i8> = call.pulses.iter().map(|&pulse| pulse as i8).collect();
    silk_encode_pulses(&mut ctx, signal, offset, &mut small, call.size.length());
    Writer::of_the_crate(&ctx)
}

/// Pulses of 8 bits for which the crate picks document 01's shifts, none past the frame's length.
pub fn refill(call: &mut Call, rng: &mut Rng) {
    let length = call.size.length() as usize;
    for place in (0..call.pulses.len()).step_by(16) {
        let block = &mut call.pulses[place..place + 16];
        let most = rng.pick(&[0, 1, 2, 4, 9, 127]);
        loop {
            block.fill_with(|| match rng.one_in(2) {
                true => rng.between(0, most) as i16 * rng.pick(&[-1, 1]),
                false => 0,
            });
            let past = length.clamp(place, place + 16) - place;
            block[past..].fill(0);
            if shifts(block) == Some(vec![its_shift(block)]) {
                break;
            }
        }
    }
}

/// The smallest shift at which no pair, four, eight and no block has more pulses than the crate's limits.
fn its_shift(block: &[i16]) -> usize {
    let fits = |&shift: &usize| {
        let full = |(part, &most): (u32, &u8)| {
            let mut sums = block.chunks(2 << part).map(|part| {
                let shifted = part.iter().map(|&pulse| magnitude(pulse) >> shift);
                shifted.sum::<u32>()
            });
            sums.any(|sum| sum > most.into())
        };
        !(0..4).zip(&silk_max_pulses_table).any(full)
    };
    (0..).find(fits).unwrap()
}

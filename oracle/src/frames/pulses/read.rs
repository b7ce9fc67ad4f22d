//! Reading pulses.

use super::pulse_ways::{pulse_ways, Block, WAYS};
use super::Call;
use crate::compare::Answer;
use crate::domain::pulses_refusal;
#[cfg(libopus)]
use crate::frames::{libopus, InLibopus};
use crate::frames::{Frame, Left};
use crate::models::Model;
use crate::ours;
use crate::reader::{read, Reading};
use crate::rng::Rng;
use crate::silk::decode_pulses::silk_decode_pulses;
use crate::silk::tables_pulses_per_block::{silk_pulses_per_block_iCDF, silk_rate_levels_iCDF};
use crate::state::Reader;
use crate::ways::ways;

/// Reading pulses, as a call on a frame.
pub struct Read;

ways! { Way, OWN_WAYS:
    // The smallest shift that fits leaves a count above 0, so that no writer comes to it.
    EmptyLows "count 0 with low bits",
}

impl Frame for Read {
    type Coder = Reading;
    type Given = Call;
    type Held = Vec<i16>;

    const NAME: &'static str = "tg_decode_pulses";
    const WAYS: &'static [&'static [&'static str]] = &[WAYS, OWN_WAYS];
    const REFUSALS: &'static [usize] = &[1, 2, 3, 4, 6];

    fn refill(call: &mut Call, rng: &mut Rng) {
        call.pulses.fill_with(|| rng.word() as i16);
    }

    fn held(call: &Call) -> Vec<i16> {
        call.pulses.clone()
    }

    fn refusal(call: &Call, packet: &[u8], reader: &Reader) -> u32 {
        pulses_refusal(packet, reader, call)
    }

    fn ours(call: &Call, packet: &mut [u8], reader: Reader) -> Answer<Left<Read>> {
        let (answer, pulses) = ours::decode_pulses(packet, reader, call);
        Answer {
            refusal: answer.refusal,
            value: answer.value,
            state: (answer.state, pulses),
        }
    }

    fn unopus(call: &Call, packet: &mut [u8], reader: Reader) -> Left<Read> {
        let mut pulses = call.pulses.clone();
        let mut ctx = reader.beside(packet);
        // SAFETY: an accepted call has 16 pulses for each block.
        unsafe {
            silk_decode_pulses(
                &mut ctx,
                pulses.as_mut_ptr(),
                call.signal_type as i32,
                call.offset_type as i32,
                call.size.length(),
            )
        };
        (Reader::of_the_crate(&ctx), pulses)
    }

    fn took(
        call: &Call,
        packet: &mut [u8],
        before: Reader,
        (_, after): &Left<Read>,
        mut mark: impl FnMut(usize, bool),
    ) {
        let (level, blocks) = counts(call, packet, before);
        for &(lows, count) in &blocks {
            let empty = count == 0 && lows > 0;
            mark(WAYS.len() + Way::EmptyLows as usize, empty);
        }
        pulse_ways(level, blocks.into_iter().zip(after.chunks(16)), &mut mark);
    }
}

#[cfg(libopus)]
impl InLibopus for Read {
    fn libopus(call: &Call, packet: &mut [u8], reader: Reader) -> Left<Read> {
        libopus::pulses(call, packet, reader)
    }
}

/// The rate level and the blocks, which are read before all pulses.
fn counts(call: &Call, packet: &mut [u8], mut reader: Reader) -> (usize, Vec<Block>) {
    let mut next = |row: &[u8]| {
        let (symbol, after) = read(packet, reader, Model::Table(row, 8));
        reader = after;
        symbol
    };
    let level = next(&silk_rate_levels_iCDF[call.signal_type as usize >> 1]) as usize;
    let block = |_| {
        let (mut lows, mut count) = (0, next(&silk_pulses_per_block_iCDF[level]));
        while count == 17 {
            lows += 1;
            count = next(&silk_pulses_per_block_iCDF[9][usize::from(lows == 10)..]);
        }
        (lows, count)
    };
    (level, (0..call.pulses.len() / 16).map(block).collect())
}

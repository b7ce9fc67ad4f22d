//! Which calls are compared.

use super::{Change, Frame, Given, Put, Size};
use crate::bytes::{fill, Bytes, Fill, FILLS};
use crate::coder::Coder;
use crate::compare::Sides;
use crate::domain::{LAST_TOTAL, LONGEST, SOUND_TOTALS};
use crate::hold::Outcome;
use crate::models::{self, Entries};
use crate::rng::Rng;
use crate::state::State;

/// At least so many calls, as many under each choice of numbers as under the others.
pub fn at_random<C: Frame>(rng: &mut Rng, cases: u64, put: &mut Put<C>) -> Outcome {
    let choices = C::Given::all();
    let each = cases.div_ceil(choices.len() as u64);
    accepted::<C>(rng, choices, each, put)
}

/// So many calls under each of these choices of numbers, on bytes and states of all kinds; those of a total
/// that is too high are refused.
pub fn accepted<C: Frame>(
    rng: &mut Rng,
    calls: Vec<C::Given>,
    each: u64,
    put: &mut Put<C>,
) -> Outcome {
    let mut bytes: Bytes = [0; LONGEST + 1];
    for mut call in calls {
        let mut length = 0;
        for n in 0..each {
            if n % 8 == 0 {
                let most = rng.pick(&[4, 100, LONGEST]);
                length = rng.or_end(0, most as u32) as usize;
                let kind = match rng.between(0, 1) {
                    0 => rng.pick(&FILLS),
                    _ => Fill::Random,
                };
                fill(rng, &mut bytes[..length], kind);
            }
            let bytes = &mut bytes[..length];
            let state = any_state::<C::Coder>(rng, bytes);
            C::refill(&mut call, rng);
            put(bytes, state, &call)?;
        }
    }
    Ok(())
}

/// A fresh state, one after some symbols, or any sound one.
pub fn any_state<K: Coder>(rng: &mut Rng, bytes: &mut [u8]) -> K::State {
    let symbols = match rng.between(0, 2) {
        0 => 0,
        1 => rng.between(1, 40),
        _ => return K::sound(rng, bytes.len()),
    };
    let mut entries: Entries = [0; 257];
    let mut answer = K::unopus(bytes, State::default(), K::open());
    for _ in 0..symbols {
        let model = models::any(rng, &mut entries, answer.value);
        let symbol = K::any(rng, model);
        answer = K::unopus(bytes, answer.state, symbol);
    }
    answer.state
}

/// States that refuse every call; each with numbers in their ranges and with each of them outside,
/// since the first check decides.
pub fn refused<C: Frame>(rng: &mut Rng, put: &mut Put<C>) -> Outcome {
    let mut bytes: Bytes = [0; LONGEST + 1];
    rng.fill(&mut bytes);
    for call in C::Given::all() {
        for change in changes::<C::Given>() {
            let mut call = call.clone();
            C::refill(&mut call, rng);
            change(&mut call);
            on_refusing_states::<C>(rng, &mut bytes, &call, put)?;
        }
    }
    Ok(())
}

/// Too many bytes, each rule of a sound state broken, totals at the limit and above it.
fn on_refusing_states<C: Frame>(
    rng: &mut Rng,
    bytes: &mut Bytes,
    call: &C::Given,
    put: &mut Put<C>,
) -> Outcome {
    put(bytes, C::Coder::sound(rng, LONGEST + 1), call)?;
    let length = rng.or_end(0, LONGEST as u32) as usize;
    let bytes = &mut bytes[..length];
    for break_rule in C::Coder::breaks() {
        let mut state = C::Coder::sound(rng, length);
        break_rule(&mut state);
        put(bytes, state, call)?;
    }
    for nbits_total in [LAST_TOTAL, LAST_TOTAL + 1, *SOUND_TOTALS.end()] {
        let state = State {
            nbits_total,
            ..C::Coder::sound(rng, length)
        };
        put(bytes, state, call)?;
    }
    Ok(())
}

/// The same in short, for a recorded list: under the last choice of numbers, and each number and length
/// outside on one state.
pub fn refused_in_short<C: Frame>(rng: &mut Rng, put: &mut Put<C>) -> Outcome {
    let mut bytes: Bytes = [0; LONGEST + 1];
    rng.fill(&mut bytes);
    let mut call = C::Given::all().pop().unwrap();
    C::refill(&mut call, rng);
    on_refusing_states::<C>(rng, &mut bytes, &call, put)?;
    let packet = &mut bytes[..8];
    let fresh = C::Coder::unopus(packet, State::default(), C::Coder::open()).state;
    for change in changes::<C::Given>() {
        let mut call = call.clone();
        change(&mut call);
        put(packet, fresh, &call)?;
    }
    Ok(())
}

/// None, and each that takes a number or length out of its range.
fn changes<G: Given>() -> impl Iterator<Item = Change<G>> {
    let none: Change<G> = Box::new(|_| {});
    let size = |change: fn(&mut Size)| -> Change<G> { Box::new(move |call| change(call.size())) };
    let sizes = Size::OUTSIDE.into_iter().map(size);
    [none].into_iter().chain(sizes).chain(G::outside())
}

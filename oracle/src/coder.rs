//! What reader and writer have in common, and the plans of both. A plan puts its calls to a sink, which
//! compares or records them.

use crate::bytes::{fill, Bytes, Fill, FILLS};
use crate::compare::{Answer, Sides, Sink};
use crate::domain::{self, LONGEST, TOTALS};
use crate::hold::Outcome;
use crate::models::{self, Entries, Model, FEW};
use crate::rng::Rng;
use crate::state::{State, Word};
use crate::states::Break;
use crate::unopus;

/// A coder of symbols beside its bytes.
pub trait Coder: Sides<State = State<<Self as Coder>::Word>> {
    type Word: Word;

    fn open() -> Self::Ask<'static>;
    /// A symbol of the model; of a writer, any that it can write.
    fn any<'a>(rng: &mut Rng, model: Model<'a>) -> Self::Ask<'a>;
    /// Symbols of these models, written values at their limits, and the calls behind them.
    fn all<'a>(models: &'a [Model<'a>]) -> Vec<Self::Ask<'a>>;
    /// The calls that have no model, behind the last symbol.
    fn ends() -> Vec<Self::Ask<'static>>;
    /// At times one of these.
    fn any_end(rng: &mut Rng) -> Option<Self::Ask<'static>>;

    /// Each field at random in its range or at one of its ends.
    fn sound(rng: &mut Rng, length: usize) -> Self::State;
    /// Each breaks one rule of a sound state.
    fn breaks() -> impl Iterator<Item = Break<Self::Word>>;
    /// Sets the value to where the answer to the call changes.
    fn to_border(rng: &mut Rng, state: &mut Self::State, ask: Self::Ask<'_>);
    /// The same, at times and where the coder's plan at limits has it.
    fn at_limit(rng: &mut Rng, state: &mut Self::State, ask: Self::Ask<'_>);

    /// From a fresh state on until the bytes and so many bits more are used up.
    fn go_on(
        sink: &mut dyn Sink<Self>,
        rng: &mut Rng,
        bytes: &mut [u8],
        fresh: Answer<Self::State>,
        bits_more: u32,
    ) -> Outcome;
}

/// A call of the crate or of libopus behind document 01's table. "Opening hands back the all-zero state."
pub fn guarded<K: Coder>(
    bytes: &mut [u8],
    (state, ask): (K::State, K::Ask<'_>),
    call: impl FnOnce(&mut [u8]) -> (u32, K::State),
) -> Answer<K::State> {
    let unchanged = match K::call(ask) == K::call(K::open()) {
        true => State::default(),
        false => state,
    };
    let refusal = K::refusal(bytes, &state, ask);
    domain::guarded(refusal, unchanged, || call(bytes))
}

/// Packets or buffers of these lengths from their opening on.
pub fn along<K: Coder>(
    sink: &mut dyn Sink<K>,
    rng: &mut Rng,
    lengths: impl IntoIterator<Item = usize>,
    bits_more: u32,
) -> Outcome {
    let mut bytes: Bytes = [0; LONGEST + 1];
    for length in lengths {
        let bytes = &mut bytes[..length];
        for kind in FILLS {
            fill(rng, bytes, kind);
            let fresh = sink.put(bytes, State::default(), K::open())?;
            K::go_on(sink, rng, bytes, fresh, bits_more)?;
        }
    }
    Ok(())
}

/// So many packets or buffers by the tables of speech, each in turn.
pub fn speech<K: Coder>(sink: &mut dyn Sink<K>, rng: &mut Rng, count: u32) -> Outcome {
    let tables = unopus::inverse_rows();
    let mut bytes: Bytes = [0; LONGEST + 1];
    for _ in 0..count {
        let length = rng.between(20, 120) as usize;
        let bytes = &mut bytes[..length];
        rng.fill(bytes);
        let mut state = sink.put(bytes, State::default(), K::open())?.state;
        for table in &tables {
            let symbol = K::any(rng, Model::Table(table, 8));
            state = sink.put(bytes, state, symbol)?.state;
        }
        for end in K::ends() {
            sink.put(bytes, state, end)?;
        }
    }
    Ok(())
}

/// So many times each call in turn, on bytes of any length and arbitrary sound states, half of those with
/// the value where the answer to the symbol changes.
pub fn each_in_turn<K: Coder>(sink: &mut dyn Sink<K>, rng: &mut Rng, cases: u64) -> Outcome {
    let (mut bytes, mut entries): (Bytes, Entries) = ([0; LONGEST + 1], [0; 257]);
    let mut length = 0;
    for case in 0..cases {
        if case % 4 == 0 {
            length = any_bytes(rng, &mut bytes);
        }
        let bytes = &mut bytes[..length];
        sink.put(bytes, State::default(), K::open())?;
        for choices in models::CHOICES {
            let (choice, seen) = (rng.pick(choices), rng.any_width());
            let model = models::chosen(rng, &mut entries, seen, choice);
            let symbol = K::any(rng, model);
            let state = any_sound::<K>(rng, length, symbol);
            sink.put(bytes, state, symbol)?;
        }
        for end in K::ends() {
            let symbol = K::any(rng, Model::Bit(1));
            let state = any_sound::<K>(rng, length, symbol);
            sink.put(bytes, state, end)?;
        }
    }
    Ok(())
}

/// Fills bytes in one of the ways, and answers how many.
fn any_bytes(rng: &mut Rng, bytes: &mut Bytes) -> usize {
    let most = rng.pick(&[4, 40, LONGEST]);
    let length = rng.or_end(0, most as u32) as usize;
    let kind = rng.pick(&FILLS);
    fill(rng, &mut bytes[..length], kind);
    length
}

fn any_sound<K: Coder>(rng: &mut Rng, length: usize, symbol: K::Ask<'_>) -> K::State {
    let mut state = K::sound(rng, length);
    if rng.one_in(2) {
        K::to_border(rng, &mut state, symbol);
    }
    state
}

/// The same for a recorded list: so many calls, each any of them.
fn on_sound<K: Coder>(sink: &mut dyn Sink<K>, rng: &mut Rng, calls: u32) -> Outcome {
    let (mut bytes, mut entries): (Bytes, Entries) = ([0; LONGEST + 1], [0; 257]);
    let mut length = 0;
    for call in 0..calls {
        if call % 16 == 0 {
            length = any_bytes(rng, &mut bytes);
        }
        let mut state = K::sound(rng, length);
        let seen = rng.any_width();
        let model = models::any(rng, &mut entries, seen);
        let symbol = K::any(rng, model);
        if rng.one_in(2) {
            K::to_border(rng, &mut state, symbol);
        }
        match K::any_end(rng) {
            Some(end) => sink.put(&mut bytes[..length], state, end)?,
            None => sink.put(&mut bytes[..length], state, symbol)?,
        };
    }
    Ok(())
}

/// Sound states with each rule broken in turn, put to each call: 2 comes before 4, 5 and 8.
pub fn on_unsound<K: Coder>(
    sink: &mut dyn Sink<K>,
    rng: &mut Rng,
    lengths: &[usize],
    models: &[Model],
) -> Outcome {
    let mut bytes: Bytes = [0; LONGEST + 1];
    for &length in lengths {
        let bytes = &mut bytes[..length];
        rng.fill(bytes);
        for (number, break_rule) in K::breaks().enumerate() {
            for ask in K::all(models) {
                let mut state = K::sound(rng, length);
                break_rule(&mut state);
                let answer = sink.put(bytes, state, ask)?;
                if answer.refusal != if length > LONGEST { 1 } else { 2 } {
                    return Err(format!("break {number} of {length} bytes: {answer:?}"));
                }
            }
        }
    }
    Ok(())
}

/// Packets or buffers of these lengths, filled in these ways; states of these totals, sound but for
/// that; and these models.
pub fn at_limits<K: Coder>(
    sink: &mut dyn Sink<K>,
    rng: &mut Rng,
    (lengths, fills): (&[usize], &[Fill]),
    totals: &[u32],
    models: &[Model],
) -> Outcome {
    let mut bytes: Bytes = [0; LONGEST + 1];
    for (&length, &kind) in lengths
        .iter()
        .flat_map(|n| fills.iter().map(move |kind| (n, kind)))
    {
        let bytes = &mut bytes[..length];
        fill(rng, bytes, kind);
        sink.put(bytes, State::default(), K::open())?;
        for &nbits_total in totals {
            for ask in K::all(models) {
                let mut state = K::sound(rng, length);
                K::at_limit(rng, &mut state, ask);
                state.nbits_total = nbits_total;
                sink.put(bytes, state, ask)?;
            }
        }
    }
    Ok(())
}

/// The last three in short, for a recorded list: these few models at the ends of lengths, and these on
/// broken states.
pub fn in_short<K: Coder>(
    sink: &mut dyn Sink<K>,
    rng: &mut Rng,
    few: &[Model],
    on_broken: &[Model],
) -> Outcome {
    let (two, ends) = ([2, LONGEST + 1], [0, 1, LONGEST - 1, LONGEST]);
    let random = [Fill::Random];
    at_limits(sink, rng, (&[7], &random), &[33], models::at_limits())?;
    at_limits(sink, rng, (&two, &random), &TOTALS, &FEW)?;
    at_limits(sink, rng, (&ends, &random), &[1000], few)?;
    on_unsound(sink, rng, &[3], on_broken)?;
    on_sound(sink, rng, 300)
}

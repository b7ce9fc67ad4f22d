//! A difference, in the words that it takes to make it again.

use crate::compare::{Answer, Kind};
use crate::hold::Outcome;
use std::fmt::Debug;

/// As many bytes of a packet or buffer are printed from one place on.
const SHOWN: usize = 32;

/// What a side answered, nothing where it panicked, and the bytes that it left.
pub type Left<'a, S> = (Option<&'a Answer<S>>, &'a [u8]);

/// The call, its bytes and state, and both sides' answers.
pub fn difference<K: Kind, S: Debug>(
    bytes: &[u8],
    state: K::State,
    ask: &dyn Debug,
    (ours, our_bytes): Left<S>,
    (theirs, their_bytes): Left<S>,
) -> String {
    let mut lines = vec![
        format!("DIFFER: {ask:?}"),
        format!("{} bytes: {}", bytes.len(), hex(bytes)),
    ];
    if bytes.len() > SHOWN {
        let places = K::places(&state).into_iter();
        for place in places.filter(|&place| place < bytes.len()) {
            lines.push(format!("from place {place}: {}", hex(&bytes[place..])));
        }
    }
    lines.push(format!("on {state:?}"));
    lines.push(format!("ours:   {}", answer(ours)));
    lines.push(format!("theirs: {}", answer(theirs)));
    if let Some(place) = (0..bytes.len()).find(|&i| our_bytes[i] != their_bytes[i]) {
        let (ours, theirs) = (our_bytes[place], their_bytes[place]);
        lines.push(format!(
            "byte {place}: ours {ours:02X}, theirs {theirs:02X}"
        ));
    }
    lines.join("\n    ")
}

fn answer<S: Debug>(answer: Option<&Answer<S>>) -> String {
    answer.map_or("panics".to_string(), |answer| format!("{answer:?}"))
}

pub fn hex(bytes: &[u8]) -> String {
    let shown = bytes.iter().take(SHOWN).map(|byte| format!("{byte:02X} "));
    let more = if bytes.len() > SHOWN { ".." } else { "" };
    shown.collect::<String>() + more
}

/// That nothing is missing of what should have been compared.
pub fn complete(missing: impl Iterator<Item = String>) -> Outcome {
    let missing: Vec<String> = missing.collect();
    if missing.is_empty() {
        return Ok(());
    }
    Err(format!("NEVER COMPARED: {}", missing.join(", ")))
}

/// Names, each with how often it was counted.
pub fn counts(counts: impl Iterator<Item = (impl AsRef<str>, u64)>) -> String {
    let counts = counts.map(|(name, n)| format!("{} {n}", name.as_ref()));
    counts.collect::<Vec<_>>().join(", ")
}

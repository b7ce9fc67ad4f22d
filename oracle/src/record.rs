//! The fixed lists of calls with the crate's answers (in whole numbers where a store of its stabiliser
//! leaves 16 bits) that the programs crates/.._cases replay, in the layout of docs/RECORDED.md.

use crate::compare::{Answer, Sides, Sink};
use crate::counters::Counters;
use crate::hold::Outcome;
use crate::report;
use crate::rng::Rng;
use crate::state::Words;

/// A kind of coder with a list of its own.
pub trait Recorded: Sides {
    /// Puts the calls of the list to the sink.
    fn list(sink: &mut dyn Sink<Self>, rng: &mut Rng) -> Outcome;
    fn words(state: &Self::State) -> Words;
    /// The numbers that go with the call, and the table's entries.
    fn asked(ask: Self::Ask<'_>) -> (Vec<u32>, Vec<u8>);
}

/// What the program reads, and what it prints where every call agrees.
pub struct Files {
    pub stdin: Vec<u8>,
    pub stdout: String,
}

impl Files {
    /// The list so far, and how many calls of each name are on it.
    pub fn new(list: Records, calls: &[(&str, u64)]) -> Self {
        let lines = calls.iter().map(|(name, n)| format!("{name} {n}\n"));
        let all: u64 = calls.iter().map(|(_, n)| n).sum();
        Files {
            stdin: list.written,
            stdout: lines.collect::<String>() + &format!("all {all} agree\n"),
        }
    }
}

/// The list, the same every time.
pub fn files<K: Recorded>() -> Result<Files, String> {
    let mut list = List::<K> {
        records: Records::default(),
        counters: Counters::new(),
    };
    K::list(&mut list, &mut Rng::new(0))?;
    report::complete(list.counters.missing(|_, _| true))?;
    let calls = K::CALLS.iter().zip(list.counters.scores());
    let calls = calls.map(|((name, _), score)| (*name, score.cases()));
    Ok(Files::new(list.records, &calls.collect::<Vec<_>>()))
}

/// A sink that answers as the crate does behind document 01's table, and writes each call down.
struct List<K: Recorded> {
    records: Records,
    counters: Counters<K>,
}

impl<K: Recorded> Sink<K> for List<K> {
    fn put(
        &mut self,
        bytes: &mut [u8],
        state: K::State,
        ask: K::Ask<'_>,
    ) -> Result<Answer<K::State>, String> {
        let before = bytes.to_vec();
        let answer = K::unopus(bytes, state, ask);
        let score = self.counters.score(ask);
        score.count(answer.refusal, true, String::new);
        self.counters.mark(bytes.len(), &state, ask, &answer);
        let (numbers, rest) = K::asked(ask);
        self.records.call(&Recording {
            call: calls::FIRST + K::call(ask) as u8,
            bytes: (&before, bytes),
            states: (K::words(&state), K::words(&answer.state)),
            answer: [answer.refusal, answer.value],
            numbers: &numbers,
            rest: &rest,
        });
        Ok(answer)
    }

    fn counters(&self) -> &Counters<K> {
        &self.counters
    }
}

// ---- the layout

/// What a record's third byte tells: that it has bytes alone, or the number of its call.
pub mod calls {
    pub const BYTES: u8 = 0;
    /// The calls of a reader, of a writer and on line spectra follow in the order of `Kind::CALLS`.
    pub const FIRST: u8 = 1;

    pub const READ_INDICES: u8 = 1;
    pub const READ_PULSES: u8 = 2;
    pub const WRITE_INDICES: u8 = 3;
    pub const WRITE_PULSES: u8 = 4;

    pub const FRAME_LISTER: u8 = 1;
    pub const NLSF_STABILISER: u8 = 2;
}

/// What its fourth byte tells of a call, added up: the state is the one that the last call handed back; the
/// bytes after the call stand last.
const CHAINED: u8 = 1;
const CHANGED: u8 = 2;

/// A call with its answer; of bytes and states what was before it and what it left.
pub struct Recording<'a> {
    pub call: u8,
    pub bytes: (&'a [u8], &'a [u8]),
    pub states: (Words, Words),
    pub answer: [u32; 2],
    pub numbers: &'a [u32],
    pub rest: &'a [u8],
}

/// Records one after the other.
#[derive(Default)]
pub struct Records {
    written: Vec<u8>,
    given: Option<Vec<u8>>,
    handed_back: Option<Words>,
}

impl Records {
    pub fn call(&mut self, recording: &Recording) {
        let (before, after) = recording.bytes;
        if self.given.as_deref() != Some(before) {
            self.bytes(before);
        }
        let (given, handed_back) = recording.states;
        let chained = self.handed_back == Some(given);
        let changed = before != after;
        let mut rest = little_endian(&recording.answer);
        rest.extend(little_endian(&handed_back));
        rest.extend(little_endian(recording.numbers));
        if !chained {
            rest.extend(little_endian(&given));
        }
        rest.extend(recording.rest);
        if changed {
            rest.extend(after);
        }
        let how = CHAINED * u8::from(chained) + CHANGED * u8::from(changed);
        self.record(recording.call, how, &rest);
        self.given = Some(after.to_vec());
        self.handed_back = Some(handed_back);
    }

    /// An input of a program, with the text that it prints. It is the bytes that stand, cut short, or
    /// followed by one byte again and again.
    pub fn printed(&mut self, call: u8, input: &[u8], text: &str) {
        let made = self.given.as_deref().and_then(|given| filler(given, input));
        let filler = made.unwrap_or_else(|| {
            let filler = input.last().copied().unwrap_or(0);
            let ends = input.iter().rposition(|&byte| byte != filler);
            let given = &input[..ends.map_or(0, |last| last + 1)];
            self.bytes(given);
            filler
        });
        let length = little_endian(&[input.len() as u32]);
        self.record(call, filler, &[&length, text.as_bytes()].concat());
    }

    fn bytes(&mut self, given: &[u8]) {
        self.record(calls::BYTES, 0, given);
        self.given = Some(given.to_vec());
    }

    fn record(&mut self, call: u8, how: u8, rest: &[u8]) {
        let size = u16::try_from(rest.len()).unwrap();
        self.written.extend(size.to_le_bytes());
        self.written.extend([call, how]);
        self.written.extend(rest);
    }
}

/// The byte that makes the input of the given bytes, if one does.
fn filler(given: &[u8], input: &[u8]) -> Option<u8> {
    let shared = given.len().min(input.len());
    let (begins, behind) = input.split_at(shared);
    let filler = behind.first().copied().unwrap_or(0);
    let made = begins == &given[..shared] && behind.iter().all(|&byte| byte == filler);
    made.then_some(filler)
}

fn little_endian(numbers: &[u32]) -> Vec<u8> {
    numbers
        .iter()
        .flat_map(|number| number.to_le_bytes())
        .collect()
}

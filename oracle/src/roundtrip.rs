//! What was written reads back: lists of symbols go through our exported calls alone, and the crate's
//! reader reads the same.
//!
//! Where the account after the last symbol is at most 8 x length, finishing reports no error; where it
//! reports none, a fresh reader gives back every symbol, with the account that the writer had after it.

use crate::board::{Board, Score, CRATE};
use crate::bytes::Bytes;
use crate::compare::{Answer, Kind, Sides};
use crate::domain::LONGEST;
use crate::hold::{Extent, Outcome};
use crate::models::{self, Entries, Model};
use crate::reader::{Ask, Reading};
use crate::report;
use crate::rng::Rng;
use crate::state::Reader;
use crate::{ours, unopus};

/// Besides those of speech.
const RANDOM_TABLES: usize = 400;

/// A table's entries and scale.
type Table = (Vec<u8>, u32);

#[derive(Debug)]
struct Symbol<'a> {
    model: Model<'a>,
    value: u32,
    /// After the symbol was written.
    account: u32,
}

pub fn hold(extent: &Extent, board: &mut Board) {
    let mut rng = Rng::new(extent.seed);
    let tables = tables(&mut rng);
    let mut buffer: Bytes = [0; LONGEST + 1];
    let (mut tally, mut score) = (Tally::default(), Score::default());
    every_short_list(&mut score, board);
    for _ in 0..extent.cases {
        let most = rng.pick(&[3, 20, 20, 60]);
        let length = match rng.between(0, 511) {
            0 => rng.or_end(0, LONGEST as u32),
            _ => rng.between(0, most),
        };
        let buffer = &mut buffer[..length as usize];
        rng.fill(buffer);
        let round = round(buffer, at_random(&mut rng, &tables, length));
        score.outcome(round.map(|(list, ends)| tally.count(&list, ends)));
    }
    tally.settle(board);
    board.row("lists read back", CRATE, &score);
}

/// A list written, finished and, where it fits, read back.
fn round<'a>(
    buffer: &mut [u8],
    next: impl FnMut(u32) -> Option<(Model<'a>, u32)>,
) -> Result<(Vec<Symbol<'a>>, Ends), String> {
    let (list, error) = write(buffer, next)?;
    let ends = check(buffer, &list, error);
    let ends = ends.map_err(|e| format!("{e}: {list:?} over {} bytes", buffer.len()))?;
    Ok((list, ends))
}

/// The alphabet of the short lists: the rarest and the likeliest bit, a byte, a number with raw bits,
/// and raw bits that fill no byte and one byte.
const ALPHABET: [(Model, u32); 9] = [
    (Model::Bit(1), 0),
    (Model::Bit(15), 0),
    (Model::Bit(15), 1),
    (Model::Number(256), 0),
    (Model::Number(256), 255),
    (Model::Number(1000), 999),
    (Model::Table(&[250, 3, 0], 8), 1),
    (Model::Bits(3), 5),
    (Model::Bits(8), 255),
];

/// Symbols of a short list, at most.
const SHORT: u32 = 5;

/// Every list of the alphabet, over every buffer of at most 4 bytes.
fn every_short_list(score: &mut Score, board: &Board) {
    let mut ends = [0u64; 3];
    for length in 0..=4 {
        for symbols in 0..=SHORT {
            for number in 0..ALPHABET.len().pow(symbols) {
                let buffer = &mut [0xA5; 4][..length];
                // The number's digits to the base of the alphabet.
                let mut digits = (0..symbols).map(|place| number / ALPHABET.len().pow(place));
                let next = |_| digits.next().map(|digit| ALPHABET[digit % ALPHABET.len()]);
                let round = round(buffer, next);
                score.outcome(round.map(|(_, end)| ends[end as usize] += 1));
            }
        }
    }
    let [by_account, beyond, lost] = ends;
    board.note(format!(
        "lists read back: of at most {SHORT} of {} symbols over 0 to 4 bytes, all: {by_account} fit by \
         their account, {beyond} though it is above 8 x length, {lost} do not fit",
        ALPHABET.len()
    ));
}

fn tables(rng: &mut Rng) -> Vec<Table> {
    let mut tables: Vec<Table> = unopus::inverse_rows().into_iter().map(|t| (t, 8)).collect();
    let mut entries: Entries = [0; 257];
    for _ in 0..RANDOM_TABLES {
        let table = models::any_table(rng, &mut entries);
        tables.push((table.entries().to_vec(), table.number()));
    }
    tables
}

/// The symbols that `next` gives for the account so far, written and finished; the error that
/// finishing reports.
fn write<'a>(
    buffer: &mut [u8],
    mut next: impl FnMut(u32) -> Option<(Model<'a>, u32)>,
) -> Result<(Vec<Symbol<'a>>, i32), String> {
    let mut list = Vec::new();
    let mut writer = accepted(ours::enc_open(buffer))?.state;
    let mut account = accepted(ours::enc_account(buffer, writer))?.value;
    while let Some((model, value)) = next(account) {
        writer = accepted(ours::enc(buffer, writer, model, value))?.state;
        account = accepted(ours::enc_account(buffer, writer))?.value;
        list.push(Symbol {
            model,
            value,
            account,
        });
    }
    let done = accepted(ours::enc_done(buffer, writer))?;
    Ok((list, done.state.error))
}

/// Symbols at random. They end within a few bits of the buffer's end, most often; every other list
/// ends in raw bits that come out even.
fn at_random<'a>(
    rng: &'a mut Rng,
    tables: &'a [Table],
    length: u32,
) -> impl FnMut(u32) -> Option<(Model<'a>, u32)> + 'a {
    let full = 8 * length;
    let end = match rng.between(0, 7) {
        0 => rng.between(0, full),
        1 => rng.between(full, full + 300),
        _ => (full + rng.between(0, 10)).saturating_sub(6),
    };
    let even = rng.one_in(2);
    move |account| {
        let model = match end.checked_sub(account)? {
            0 => return None,
            left @ 1..=25 if even => Model::Bits(left),
            _ => any_model(rng, tables),
        };
        let value = model.any_value(rng);
        Some((model, value))
    }
}

fn any_model<'a>(rng: &mut Rng, tables: &'a [Table]) -> Model<'a> {
    match rng.between(0, 11) {
        0 | 1 => Model::Bit(rng.between(1, 15)),
        2 | 3 => Model::Number(rng.between(2, 600)),
        4 => Model::Number(rng.any_width().max(2)),
        5 => Model::Number(rng.or_end((1 << 24) + 1, u32::MAX)),
        6 => Model::Bits(rng.between(1, 25)),
        _ => {
            let table = rng.between(0, tables.len() as u32 - 1) as usize;
            Model::Table(&tables[table].0, tables[table].1)
        }
    }
}

pub fn accepted<S: std::fmt::Debug>(answer: Answer<S>) -> Result<Answer<S>, String> {
    match answer.refusal {
        0 => Ok(answer),
        _ => Err(format!("REFUSED: {answer:?}")),
    }
}

/// How a list can end.
#[derive(Clone, Copy)]
enum Ends {
    ByAccount,
    Beyond,
    Lost,
}

fn check(buffer: &mut [u8], list: &[Symbol], error: i32) -> Result<Ends, String> {
    let by_account = last_account(list) as usize <= 8 * buffer.len();
    match (error, by_account) {
        (0, _) => {
            read_back(buffer, list)?;
            Ok(if by_account {
                Ends::ByAccount
            } else {
                Ends::Beyond
            })
        }
        (-1, false) => Ok(Ends::Lost),
        _ => Err(format!("FINISHED with error {error}")),
    }
}

/// A fresh writer shows 1.
fn last_account(list: &[Symbol]) -> u32 {
    list.last().map_or(1, |symbol| symbol.account)
}

fn read_back(packet: &mut [u8], list: &[Symbol]) -> Outcome {
    let mut reader = accepted(ours::dec_open(packet))?.state;
    let mut theirs = Reading::unopus(packet, Reader::default(), Ask::Open);
    for (place, symbol) in list.iter().enumerate() {
        let read = accepted(ours::dec(packet, reader, symbol.model))?;
        reader = read.state;
        let account = accepted(ours::dec_account(packet, reader))?.value;
        theirs = Reading::unopus(packet, theirs.state, Ask::Read(symbol.model));
        if (read.value, account) != (symbol.value, symbol.account) {
            let value = read.value;
            return Err(format!("READ at {place}: {value}, account {account}"));
        }
        if (theirs.refusal, theirs.value) != (0, symbol.value) {
            return Err(format!("READ by the crate at {place}: {theirs:?}"));
        }
    }
    match reader.error {
        0 => Ok(()),
        error => Err(format!("READ with error {error}")),
    }
}

// ---- what the lists were

#[derive(Default)]
struct Tally {
    /// By `Ends`; a list of no symbol fits no bytes whatever its account.
    ends: [u64; 3],
    empty: u64,
    /// By the calls of the reader.
    symbols: [u64; Reading::CALLS.len()],
    large_totals: u64,
    exponents: [u64; 16],
    raw_bits: [u64; 26],
}

impl Tally {
    fn count(&mut self, list: &[Symbol], ends: Ends) {
        if list.is_empty() {
            self.empty += 1;
        } else {
            self.ends[ends as usize] += 1;
        }
        for symbol in list {
            self.symbols[Reading::call(Ask::Read(symbol.model))] += 1;
            match symbol.model {
                Model::Bit(exponent) => self.exponents[exponent as usize] += 1,
                Model::Bits(bits) => self.raw_bits[bits as usize] += 1,
                Model::Number(total) => self.large_totals += u64::from(total > 1 << 24),
                Model::Table(..) => {}
            }
        }
    }

    fn settle(&self, board: &mut Board) {
        let counts = self.lists_and_kinds().into_iter();
        board.note(format!("lists read back: {}", report::counts(counts)));
        board.covered("lists read back", self.missing());
    }

    fn lists_and_kinds(&self) -> Vec<(String, u64)> {
        let [by_account, beyond, lost] = self.ends;
        let lists = [
            ("fit by their account", by_account),
            ("fit though it is above 8 x length", beyond),
            ("do not fit", lost),
            ("empty", self.empty),
            ("totals above 2^24", self.large_totals),
        ];
        let kinds = Reading::CALLS.iter().zip(self.symbols).skip(2);
        let kinds = kinds.map(|((name, _), n)| (*name, n));
        let all = lists.into_iter().chain(kinds);
        all.map(|(name, n)| (name.to_string(), n)).collect()
    }

    fn missing(&self) -> impl Iterator<Item = String> {
        let numbered = |name, counts: &[u64]| {
            let counts = counts.iter().enumerate().skip(1);
            let counts = counts.map(|(i, &n)| (format!("{name} {i}"), n));
            counts.collect::<Vec<_>>()
        };
        let mut all = self.lists_and_kinds();
        all.extend(numbered("exponent", &self.exponents));
        all.extend(numbered("raw bits", &self.raw_bits));
        let missing = all.into_iter().filter(|(_, n)| *n == 0);
        missing.map(|(name, _)| name)
    }
}

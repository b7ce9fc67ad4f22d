//! The four kinds of symbols that are read and written, and choices of them.

use crate::rng::Rng;
use crate::ways::ways;
use std::sync::OnceLock;

#[derive(Clone, Copy, Debug, PartialEq, Eq)]
pub enum Model<'a> {
    /// A bit that is 1 with probability 1 in 2^exponent.
    Bit(u32),
    /// A symbol of an inverse table: its entries and scale.
    Table(&'a [u8], u32),
    /// A number below a total.
    Number(u32),
    /// So many raw bits.
    Bits(u32),
}

ways! { SymbolWay, SYMBOL_WAYS:
    Zero "bit 0",
    One "bit 1",
    Only "only symbol",
    First "first symbol",
    Middle "middle symbol",
    Last "last symbol",
    Beside "symbol beside one of probability 0",
    Coded "number without raw bits",
    Split "number with raw bits",
}

impl Model<'_> {
    /// The exponent, the scale, the total or the count of raw bits.
    pub fn number(self) -> u32 {
        match self {
            Model::Bit(n) | Model::Table(_, n) | Model::Number(n) | Model::Bits(n) => n,
        }
    }

    /// A table's entries.
    pub fn entries(&self) -> &[u8] {
        match self {
            Model::Table(entries, _) => entries,
            _ => &[],
        }
    }

    /// How many raw bits a symbol of an accepted model has (RFC 6716, sections 4.1.4 and 4.1.5).
    pub fn raw_bits(self) -> u32 {
        match self {
            Model::Bit(_) | Model::Table(..) => 0,
            Model::Number(total) => (32 - (total - 1).leading_zeros()).saturating_sub(8),
            Model::Bits(bits) => bits,
        }
    }

    /// What a range is cut into; the range itself where the model cuts nothing.
    pub fn unit(self, range: u32) -> u32 {
        let unit = match self {
            Model::Bit(shift) | Model::Table(_, shift) => range.checked_shr(shift),
            Model::Number(0 | 1) | Model::Bits(_) => None,
            Model::Number(total) => Some(range / self.parts(total)),
        };
        unit.filter(|&unit| unit > 0).unwrap_or(range)
    }

    /// Into how many parts a number of this total cuts the range.
    fn parts(self, total: u32) -> u32 {
        ((total - 1) >> self.raw_bits()) + 1
    }

    /// Where in the range the part of a value begins that can be written.
    pub fn start(self, range: u32, value: u32) -> u32 {
        let coded = value >> self.raw_bits();
        if coded == 0 {
            return 0;
        }
        let above = match self {
            Model::Table(entries, _) => entries[coded as usize - 1].into(),
            Model::Number(total) => self.parts(total) - coded,
            Model::Bit(_) | Model::Bits(_) => 1,
        };
        range - self.unit(range) * above
    }

    /// A value that can be written: a symbol of a table as often as its probability says.
    pub fn any_value(self, rng: &mut Rng) -> u32 {
        match self {
            Model::Bit(_) => rng.between(0, 1),
            Model::Table(entries, scale) => {
                let point = rng.between(0, (1 << scale) - 1);
                let below = |&entry: &u8| u32::from(entry) <= point;
                entries.iter().position(below).unwrap() as u32
            }
            Model::Number(total) if rng.one_in(4) => rng.or_end(0, total - 1),
            Model::Number(total) => rng.between(0, total - 1),
            Model::Bits(bits) => rng.between(0, (1 << bits) - 1),
        }
    }

    /// The values at which a write's answer changes, and to either side; any model will do.
    pub fn limit_values(self) -> Vec<u32> {
        let end = match self {
            Model::Bit(_) => 2,
            Model::Table(entries, _) => entries.len() as u32,
            Model::Number(total) => total,
            Model::Bits(bits) => 1_u32.checked_shl(bits).unwrap_or(0),
        };
        let mut values = vec![
            0,
            1,
            end.wrapping_sub(1),
            end,
            end.wrapping_add(1),
            u32::MAX,
        ];
        values.sort_unstable();
        values.dedup();
        values
    }

    /// Marks the ways that a symbol of an accepted model is one.
    pub fn ways(self, value: u32, mark: &mut impl FnMut(SymbolWay, bool)) {
        match self {
            Model::Bit(_) => {
                mark(SymbolWay::Zero, value == 0);
                mark(SymbolWay::One, value == 1);
            }
            Model::Table(entries, _) => {
                let (symbol, last) = (value as usize, entries.len() - 1);
                mark(SymbolWay::Only, last == 0);
                mark(SymbolWay::First, symbol == 0 && last > 0);
                mark(SymbolWay::Middle, 0 < symbol && symbol < last);
                mark(SymbolWay::Last, symbol == last && last > 0);
                // A symbol of probability 0 has the entry before it.
                let empty = |k: usize| 0 < k && k <= last && entries[k] == entries[k - 1];
                let beside = empty(symbol + 1) || 0 < symbol && empty(symbol - 1);
                mark(SymbolWay::Beside, beside);
            }
            Model::Number(_) => {
                mark(SymbolWay::Coded, self.raw_bits() == 0);
                mark(SymbolWay::Split, self.raw_bits() > 0);
            }
            Model::Bits(_) => {}
        }
    }
}

/// Room for the entries of a table, one more than document 01 allows.
pub type Entries = [u8; 257];

/// An accepted model at random; some depend on the value read before.
pub fn any<'a>(rng: &mut Rng, entries: &'a mut Entries, value: u32) -> Model<'a> {
    let choice = rng.between(0, 9);
    chosen(rng, entries, value, choice)
}

/// The choices among accepted models that make one of each kind.
pub const CHOICES: [&[u32]; 4] = [&[0, 1], &[2, 3, 4], &[5, 6], &[7]];

pub fn chosen<'a>(rng: &mut Rng, entries: &'a mut Entries, value: u32, choice: u32) -> Model<'a> {
    match choice {
        0 => Model::Bit(rng.between(1, 15)),
        1 => Model::Bit(1 + value % 15),
        2 => Model::Number(rng.between(2, 600)),
        3 => Model::Number(rng.any_width().max(2)),
        4 => Model::Number(value.saturating_add(2)),
        5 => Model::Bits(rng.between(1, 25)),
        6 => Model::Bits(1 + value % 25),
        _ => any_table(rng, entries),
    }
}

/// A table that keeps document 01's rule, most often a short one; symbols of probability 0 occur.
pub fn any_table<'a>(rng: &mut Rng, entries: &'a mut Entries) -> Model<'a> {
    let scale = rng.between(1, 8);
    let count = match rng.between(0, 15) {
        0 => rng.or_end(1, 256),
        _ => rng.between(2, 24),
    } as usize;
    let mut entry = rng.between(0, (1 << scale) - 1);
    let step = rng.between(0, 2 * entry / count as u32 + 1);
    for place in &mut entries[..count] {
        *place = entry as u8;
        entry = entry.saturating_sub(rng.between(0, step));
    }
    entries[count - 1] = 0;
    Model::Table(&entries[..count], scale)
}

const EXPONENTS: [u32; 12] = [0, 1, 2, 8, 9, 14, 15, 16, 31, 32, 33, u32::MAX];
const COUNTS: [u32; 14] = [0, 1, 2, 7, 8, 9, 16, 24, 25, 26, 31, 32, 33, u32::MAX];
const TOTALS: [u32; 22] = [
    0,
    1,
    2,
    3,
    4,
    127,
    128,
    129,
    255,
    256,
    257,
    258,
    511,
    512,
    513,
    1 << 16,
    (1 << 16) + 1,
    1 << 24,
    (1 << 31) - 1,
    1 << 31,
    (1 << 31) + 1,
    u32::MAX,
];
const SCALES: [u32; 12] = [0, 1, 2, 3, 4, 5, 6, 7, 8, 9, 32, u32::MAX];

/// One model of each kind, and one that is refused.
pub const FEW: [Model; 5] = [
    Model::Bit(3),
    Model::Table(&[200, 90, 90, 7, 0], 8),
    Model::Number(100_000),
    Model::Bits(11),
    Model::Bits(26),
];

/// Models at every number where document 01's rules change, and to either side of it.
pub fn at_limits() -> &'static [Model<'static>] {
    static LIMITS: OnceLock<Vec<Model>> = OnceLock::new();
    LIMITS.get_or_init(|| {
        let under = |scale| {
            let tables = tables(scale).into_iter();
            tables.map(move |table| Model::Table(table.leak(), scale))
        };
        let bits = EXPONENTS.into_iter().map(Model::Bit);
        let tables = SCALES.into_iter().flat_map(under);
        let numbers = TOTALS.into_iter().map(Model::Number);
        let raw = COUNTS.into_iter().map(Model::Bits);
        bits.chain(tables).chain(numbers).chain(raw).collect()
    })
}

/// Tables that just keep the rule under a scale, and some that break it by one.
fn tables(scale: u32) -> Vec<Vec<u8>> {
    let top = match scale {
        1..=8 => ((1_u32 << scale) - 1) as u8,
        _ => 255,
    };
    let mut tables = vec![
        vec![0],
        vec![1, 0],
        vec![top, 0],
        vec![top, top, 1, 1, 0, 0],
        (0..=255).rev().map(|entry: u8| entry.min(top)).collect(),
        vec![0; 256],
        // No entry, and one too many; a last entry above 0; rising by one, at once and at the end.
        vec![],
        vec![0; 257],
        vec![1],
        vec![top, 1],
        vec![top - 1, top, 0],
        vec![top, 0, 1, 0],
    ];
    // First entry too large by one, where a byte can hold it.
    tables.extend(top.checked_add(1).map(|first| vec![first, 0]));
    tables
}

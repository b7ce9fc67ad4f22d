//! The reader's calls: ours beside the crate's and libopus's.

#[cfg(libopus)]
mod libopus;
mod listed;
mod plans;
mod sides;
mod states;

use crate::compare::{Answer, Kind};
use crate::models::Model;
use crate::state::Reader;
use crate::ways::ways;

pub use sides::read;
pub use states::{breaks, sound};

#[derive(Clone, Copy, Debug)]
pub enum Ask<'a> {
    Open,
    Account,
    Read(Model<'a>),
}

/// The reader as a kind of coder.
pub struct Reading;

ways! { Way, WAYS:
    Clamped "number clamped",
    Errored "read under error 1",
    NoTurn "no turn",
    OneTurn "one turn",
    TwoTurns "two turns",
    PastFront "0 past the front",
    Filled "window filled",
    Unfilled "window not filled",
    PastBack "0 past the back",
}

impl Kind for Reading {
    type State = Reader;
    type Ask<'a> = Ask<'a>;

    const NAME: &'static str = "reader";
    const CALLS: &'static [(&'static str, &'static [usize])] = &[
        ("open", &[1]),
        ("account", &[1, 2, 3]),
        ("bit", &[1, 2, 3, 4]),
        ("table", &[1, 2, 3, 4, 5]),
        ("number", &[1, 2, 3, 4]),
        ("bits", &[1, 2, 3, 4]),
    ];
    const EXPORTS: &'static [&'static str] = &[
        "tg_dec_open",
        "tg_dec_account",
        "tg_dec_bit",
        "tg_dec_icdf",
        "tg_dec_uint",
        "tg_dec_bits",
    ];
    const BRANCHES: &'static [&'static str] = WAYS;

    fn call(ask: Ask) -> usize {
        match ask {
            Ask::Open => 0,
            Ask::Account => Self::ACCOUNT,
            Ask::Read(Model::Bit(_)) => 2,
            Ask::Read(Model::Table(..)) => 3,
            Ask::Read(Model::Number(_)) => 4,
            Ask::Read(Model::Bits(_)) => 5,
        }
    }

    fn symbol(ask: Ask, answer: &Answer<Reader>, lend: impl FnOnce(Model, u32)) {
        if let Ask::Read(model) = ask {
            lend(model, answer.value);
        }
    }

    fn took(
        length: usize,
        before: &Reader,
        ask: Ask,
        answer: &Answer<Reader>,
        mut mark: impl FnMut(usize, bool),
    ) {
        let mut mark = |way: Way, taken| mark(way as usize, taken);
        match ask {
            // The first byte and three turns.
            Ask::Open => mark(Way::PastFront, length < 4),
            Ask::Account => {}
            Ask::Read(model) => {
                mark(Way::Errored, before.error == 1);
                mark(Way::Clamped, before.error < answer.state.error);
                coded_part(before, model, answer, &mut mark);
                raw_part(before, model, answer, &mut mark);
            }
        }
    }

    fn places(reader: &Reader) -> [usize; 2] {
        let back = reader
            .storage
            .saturating_sub(reader.end_offs)
            .saturating_sub(4);
        [reader.offs as usize, back as usize]
    }
}

fn coded_part(
    before: &Reader,
    model: Model,
    answer: &Answer<Reader>,
    mark: &mut impl FnMut(Way, bool),
) {
    if matches!(model, Model::Bits(_)) {
        return;
    }
    let after = &answer.state;
    let turns = before.turns(model, after);
    mark(Way::NoTurn, turns == 0);
    mark(Way::OneTurn, turns == 1);
    mark(Way::TwoTurns, turns == 2);
    mark(Way::PastFront, after.offs - before.offs < turns);
}

fn raw_part(
    before: &Reader,
    model: Model,
    answer: &Answer<Reader>,
    mark: &mut impl FnMut(Way, bool),
) {
    let bits = model.raw_bits();
    if bits == 0 {
        return;
    }
    let filled = before.nend_bits < bits;
    // A window that is filled takes bytes while one fits.
    let taken = (32 - before.nend_bits) / 8;
    mark(Way::Filled, filled);
    mark(Way::Unfilled, !filled);
    mark(
        Way::PastBack,
        filled && answer.state.end_offs - before.end_offs < taken,
    );
}

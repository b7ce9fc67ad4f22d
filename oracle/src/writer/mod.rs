//! The writer's calls: ours beside the crate's and libopus's.

#[cfg(libopus)]
mod libopus;
mod listed;
mod plans;
mod sides;
mod states;
mod ways;

use crate::compare::{Answer, Kind};
use crate::models::Model;
use crate::state::Writer;
use ways::{Way, WAYS};

#[derive(Clone, Copy, Debug)]
pub enum Ask<'a> {
    Open,
    Account,
    Write(Model<'a>, u32),
    /// Finishing; again, where finishing handed the state back.
    Done {
        again: bool,
    },
}

/// The writer as a kind of coder.
pub struct Writing;

impl Kind for Writing {
    type State = Writer;
    type Ask<'a> = Ask<'a>;

    const NAME: &'static str = "writer";
    const CALLS: &'static [(&'static str, &'static [usize])] = &[
        ("open", &[1]),
        ("account", &[1, 2, 3]),
        ("bit", &[1, 2, 3, 4, 8]),
        ("table", &[1, 2, 3, 4, 5, 8]),
        ("number", &[1, 2, 3, 4, 8]),
        ("bits", &[1, 2, 3, 4, 8]),
        ("finish", &[1, 2, 3]),
    ];
    const EXPORTS: &'static [&'static str] = &[
        "tg_enc_open",
        "tg_enc_account",
        "tg_enc_bit",
        "tg_enc_icdf",
        "tg_enc_uint",
        "tg_enc_bits",
        "tg_enc_done",
    ];
    const BRANCHES: &'static [&'static str] = WAYS;

    fn call(ask: Ask) -> usize {
        match ask {
            Ask::Open => 0,
            Ask::Account => Self::ACCOUNT,
            Ask::Write(Model::Bit(_), _) => 2,
            Ask::Write(Model::Table(..), _) => 3,
            Ask::Write(Model::Number(_), _) => 4,
            Ask::Write(Model::Bits(_), _) => 5,
            Ask::Done { .. } => 6,
        }
    }

    fn symbol(ask: Ask, _: &Answer<Writer>, lend: impl FnOnce(Model, u32)) {
        if let Ask::Write(model, value) = ask {
            lend(model, value);
        }
    }

    fn took(
        _: usize,
        before: &Writer,
        ask: Ask,
        answer: &Answer<Writer>,
        mut mark: impl FnMut(usize, bool),
    ) {
        let mut mark = |way: Way, taken| mark(way as usize, taken);
        match ask {
            Ask::Open | Ask::Account => {}
            Ask::Write(model, value) => {
                mark(Way::Errored, before.error == -1);
                ways::coded_part(before, (model, value), &answer.state, &mut mark);
                ways::raw_part(before, model, &answer.state, &mut mark);
            }
            Ask::Done { again } => {
                mark(Way::Again, again);
                ways::finishing(before, &answer.state, &mut mark);
            }
        }
    }

    fn places(writer: &Writer) -> [usize; 2] {
        let back = writer.storage.saturating_sub(writer.end_offs);
        [writer.offs as usize, back.saturating_sub(4) as usize]
    }
}

//! The calls on line spectra: ours beside the crate's and libopus's, and in whole numbers where a store of
//! theirs leaves 16 bits.

pub mod always;
#[cfg(libopus)]
mod libopus;
mod listed;
mod plans;
mod sides;
mod text;
mod vectors;
mod watched;

use crate::compare::{Answer, Kind};
use crate::models::Model;
use std::fmt;
use text::{Course, Way, WAYS};
use watched::Watched;

pub use vectors::{gaps, vector};

/// Room for the values of a vector, one more than document 01 allows.
const ROOM: usize = 17;

/// The lent vector; what stands past it belongs to it, so that a write there is a difference.
#[derive(Clone, Copy, PartialEq, Eq)]
pub struct Vector {
    n: usize,
    room: [i16; ROOM],
}

impl Vector {
    pub fn new(n: usize) -> Self {
        Vector { n, room: [0; ROOM] }
    }

    pub fn of(values: &[i16]) -> Self {
        let mut vector = Vector::new(values.len());
        vector.values_mut().copy_from_slice(values);
        vector
    }

    pub fn values(&self) -> &[i16] {
        &self.room[..self.n]
    }

    pub fn values_mut(&mut self) -> &mut [i16] {
        &mut self.room[..self.n]
    }
}

impl fmt::Debug for Vector {
    fn fmt(&self, f: &mut fmt::Formatter) -> fmt::Result {
        write!(f, "{:?}", self.values())?;
        match self.room[self.n..].iter().any(|&past| past != 0) {
            true => write!(f, ", past it {:?}", &self.room[self.n..]),
            false => Ok(()),
        }
    }
}

#[derive(Clone, Copy, Debug)]
pub enum Ask<'a> {
    /// The indices and the rate in kHz.
    Decode([i8; 17], u32),
    /// The gaps.
    Stabilise(&'a [i16]),
}

/// The calls on a lent vector as a kind: the vector is the state, the number of moves the value.
pub struct Spectra;

impl Kind for Spectra {
    type State = Vector;
    type Ask<'a> = Ask<'a>;

    const NAME: &'static str = "spectra";
    const CALLS: &'static [(&'static str, &'static [usize])] =
        &[("decode", &[4, 6]), ("stabilise", &[6, 7])];
    const EXPORTS: &'static [&'static str] = &["tg_nlsf_decode", "tg_nlsf_stabilise"];
    // There is none.
    const ACCOUNT: usize = usize::MAX;
    const SYMBOLS: &'static [&'static str] = &[];
    const BRANCHES: &'static [&'static str] = WAYS;
    const OFTEN: &'static [usize] = &[Way::Theirs as usize, Way::Whole as usize];

    fn call(ask: Ask) -> usize {
        match ask {
            Ask::Decode(..) => 0,
            Ask::Stabilise(_) => 1,
        }
    }

    fn symbol(_: Ask, _: &Answer<Vector>, _: impl FnOnce(Model, u32)) {}

    fn took(
        _: usize,
        before: &Vector,
        ask: Ask,
        _: &Answer<Vector>,
        mut mark: impl FnMut(usize, bool),
    ) {
        courses(before, ask, &mut |way: Way, taken| {
            mark(way as usize, taken)
        });
    }

    fn places(_: &Vector) -> [usize; 2] {
        [0, 0]
    }
}

/// What a call that document 01 accepts comes to, by the crate's arithmetic and in whole numbers.
fn courses(before: &Vector, ask: Ask, mark: &mut impl FnMut(Way, bool)) -> (Watched, Course) {
    let (values, gaps) = match ask {
        Ask::Decode(indices, khz) => (
            text::places(indices, khz, mark),
            text::book(khz).deltaMin_Q15,
        ),
        Ask::Stabilise(gaps) => (before.values().to_vec(), gaps),
    };
    let watched = watched::stabilise(&values, gaps);
    let whole = text::stabilise(&values, gaps, mark);
    match ask {
        Ask::Decode(..) => {
            mark(Way::DecodedGood, whole.moves == 0);
            mark(Way::DecodedMoved, whole.moves > 0);
        }
        Ask::Stabilise(_) => {
            let alike = watched.course == whole;
            mark(Way::Theirs, !watched.left);
            mark(Way::Whole, watched.left);
            mark(Way::Alike, watched.left && alike);
            mark(Way::Part, watched.left && !alike);
        }
    }
    (watched, whole)
}

/// Whether a store of the crate leaves 16 bits in a call that document 01 accepts.
pub fn leaves(before: &Vector, ask: Ask) -> bool {
    courses(before, ask, &mut |_, _| {}).0.left
}

fn wide(numbers: &[i16]) -> Vec<i64> {
    numbers.iter().map(|&number| number.into()).collect()
}

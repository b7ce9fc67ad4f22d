//! Line spectra after RFC 6716, section 4.2.7.5, and RFC 8251, section 7, in whole numbers, of which the
//! result alone is stored in 16 bits; and the ways that a call takes.

use super::wide;
use crate::domain::order;
use crate::silk::structs::silk_NLSF_CB_struct;
use crate::silk::tables_NLSF_CB_NB_MB::silk_NLSF_CB_NB_MB;
use crate::silk::tables_NLSF_CB_WB::silk_NLSF_CB_WB;
use crate::ways::ways;

ways! { Way, WAYS:
    NoMove "0 moves",
    OneMove "1 move",
    SomeMoves "2 to 19 moves",
    Enough "20 moves that are enough",
    Fallback "20 moves and the fallback's work",
    Unsorted "fallback on an unsorted vector",
    PastTop "fallback on a value of 32,768",
    Saturated "upward sum saturated",
    First "first place moved",
    Middle "middle place moved",
    Last "last place moved",
    Tie "tie decided for the first",
    Below "centre limited below",
    Above "centre limited above",
    Between "centre not limited",
    AtZero "place clamped at 0",
    AtTop "place clamped at 32,767",
    Inside "place not clamped",
    DecodedGood "decoded without a move",
    DecodedMoved "decoded with moves",
    Theirs "stabilised and held to theirs",
    Whole "stabilised and held to whole numbers since a store of the crate leaves 16 bits",
    Alike "a store of the crate leaves 16 bits and both end alike",
    Part "a store of the crate leaves 16 bits and they part",
}

/// What a call leaves, and how many moves it took.
#[derive(Debug, PartialEq)]
pub struct Course {
    pub vector: Vec<i16>,
    pub moves: u32,
}

/// The books as the crate's files are given them.
pub fn book(khz: u32) -> &'static silk_NLSF_CB_struct {
    match khz {
        16 => &silk_NLSF_CB_WB,
        _ => &silk_NLSF_CB_NB_MB,
    }
}

// ---- section 4.2.7.5.3

/// Where a decoding that document 01 accepts has its values before they are stabilised.
pub fn places(indices: [i8; 17], khz: u32, mark: &mut impl FnMut(Way, bool)) -> Vec<i16> {
    let (book, order, first) = (book(khz), order(khz), indices[0] as usize);
    let mut residual = 0;
    let mut values = vec![0; order];
    for i in (0..order).rev() {
        let index = i32::from(indices[i + 1]);
        let selector = book.ec_sel[(first * order + i) / 2] >> (4 * (i % 2));
        let set = usize::from(selector & 1);
        // The last place has no predictor: no residual stands behind it.
        let predicted = match i + 1 < order {
            true => (residual * i32::from(book.pred_Q8[i + set * (order - 1)])) >> 8,
            false => 0,
        };
        let step = i32::from(book.quantStepSize_Q16);
        residual = predicted + ((((index << 10) - index.signum() * 102) * step) >> 16);
        let place = first * order + i;
        let value = (i32::from(book.CB1_NLSF_Q8[place]) << 7)
            + (residual << 14) / i32::from(book.CB1_Wght_Q9[place]);
        mark(Way::AtZero, value < 0);
        mark(Way::AtTop, value > 32767);
        mark(Way::Inside, (0..=32767).contains(&value));
        values[i] = value.clamp(0, 32767) as i16;
    }
    values
}

// ---- section 4.2.7.5.4

/// A stabilising that document 01 accepts.
pub fn stabilise(values: &[i16], gaps: &[i16], mark: &mut impl FnMut(Way, bool)) -> Course {
    let (mut v, gaps) = (wide(values), wide(gaps));
    let mut moves = 0;
    while moves < 20 {
        let (place, least) = smallest(&v, &gaps, mark);
        if least >= 0 {
            break;
        }
        step(&mut v, &gaps, place, mark);
        moves += 1;
    }
    mark(Way::NoMove, moves == 0);
    mark(Way::OneMove, moves == 1);
    mark(Way::SomeMoves, (2..20).contains(&moves));
    if moves == 20 {
        let good = differences(&v, &gaps).all(|difference| difference >= 0);
        mark(Way::Enough, good);
        mark(Way::Fallback, !good);
        fall_back(&mut v, &gaps, mark);
    }
    let stored = v.into_iter().map(|value| i16::try_from(value).unwrap());
    Course {
        vector: stored.collect(),
        moves,
    }
}

/// Of each place, how far it lies from the one before beyond its gap; 0 stands before the first value
/// and 32,768 behind the last.
fn differences<'a>(v: &'a [i64], gaps: &'a [i64]) -> impl Iterator<Item = i64> + 'a {
    let before = [0].into_iter().chain(v.iter().copied());
    let values = v.iter().copied().chain([32768]);
    let pairs = before.zip(values).zip(gaps);
    pairs.map(|((before, value), gap)| value - before - gap)
}

fn smallest(v: &[i64], gaps: &[i64], mark: &mut impl FnMut(Way, bool)) -> (usize, i64) {
    let (mut place, mut least, mut tied) = (0, i64::MAX, false);
    for (i, difference) in differences(v, gaps).enumerate() {
        tied = difference == least || tied && difference > least;
        if difference < least {
            (place, least) = (i, difference);
        }
    }
    mark(Way::Tie, tied && least < 0);
    (place, least)
}

fn step(v: &mut [i64], gaps: &[i64], i: usize, mark: &mut impl FnMut(Way, bool)) {
    let n = v.len();
    mark(Way::First, i == 0);
    mark(Way::Middle, 0 < i && i < n);
    mark(Way::Last, i == n);
    if i == 0 {
        v[0] = gaps[0];
        return;
    }
    if i == n {
        v[n - 1] = 32768 - gaps[n];
        return;
    }
    let half = gaps[i] >> 1;
    let lower = half + gaps[..i].iter().sum::<i64>();
    let upper = 32768 - half - gaps[i + 1..].iter().sum::<i64>();
    let centre = (v[i - 1] + v[i] + 1) >> 1;
    mark(Way::Below, centre < lower);
    mark(Way::Above, centre > upper);
    mark(Way::Between, (lower..=upper).contains(&centre));
    v[i - 1] = centre.clamp(lower, upper) - half;
    v[i] = v[i - 1] + gaps[i];
}

/// RFC 8251, section 7, has the sum saturate.
fn fall_back(v: &mut [i64], gaps: &[i64], mark: &mut impl FnMut(Way, bool)) {
    mark(Way::Unsorted, v.windows(2).any(|pair| pair[0] > pair[1]));
    mark(Way::PastTop, v.contains(&32768));
    v.sort_unstable();
    let mut before = 0;
    for (value, gap) in v.iter_mut().zip(gaps) {
        mark(Way::Saturated, before + gap > 32767);
        *value = (*value).max((before + gap).min(32767));
        before = *value;
    }
    let mut behind = 32768;
    for (value, gap) in v.iter_mut().zip(&gaps[1..]).rev() {
        *value = (*value).min(behind - gap);
        behind = *value;
    }
}

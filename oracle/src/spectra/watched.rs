//! The crate's stabiliser, NLSF_stabilize.rs, copied into numbers that hold all it computes, so that each
//! number is seen before it is cut to the 16 bits of its store. The comparison holds the copy's vector to
//! the crate's and libopus's at every call; its count of moves stands in for theirs, which they keep to
//! themselves.

use super::text::Course;
use super::wide;

pub struct Watched {
    pub course: Course,
    /// A number that the crate stores does not fit 16 bits.
    pub left: bool,
}

/// The values as the crate keeps them.
struct Kept {
    values: Vec<i64>,
    left: bool,
}

/// A stabilising that document 01 accepts.
pub fn stabilise(values: &[i16], gaps: &[i16]) -> Watched {
    let gaps = wide(gaps);
    let mut kept = Kept {
        values: wide(values),
        left: false,
    };
    let mut moves = 0;
    while moves < 20 {
        let (place, least) = smallest(&kept.values, &gaps);
        if least >= 0 {
            break;
        }
        kept.step(&gaps, place);
        moves += 1;
    }
    if moves == 20 {
        kept.fall_back(&gaps);
    }
    let vector = kept.values.iter().map(|&value| value as i16).collect();
    Watched {
        course: Course { vector, moves },
        left: kept.left,
    }
}

fn smallest(v: &[i64], gaps: &[i64]) -> (usize, i64) {
    let n = v.len();
    let (mut place, mut least) = (0, v[0] - gaps[0]);
    for i in 1..=n {
        let behind = if i < n { v[i] } else { 1 << 15 };
        let difference = behind - (v[i - 1] + gaps[i]);
        if difference < least {
            (place, least) = (i, difference);
        }
    }
    (place, least)
}

impl Kept {
    fn cut(&mut self, number: i64) -> i64 {
        let cut = i64::from(number as i16);
        self.left |= cut != number;
        cut
    }

    fn store(&mut self, place: usize, number: i64) {
        self.values[place] = self.cut(number);
    }

    fn step(&mut self, gaps: &[i64], i: usize) {
        let n = self.values.len();
        if i == 0 {
            self.store(0, gaps[0]);
        } else if i == n {
            self.store(n - 1, (1 << 15) - gaps[n]);
        } else {
            let half = gaps[i] >> 1;
            let least = gaps[..i].iter().sum::<i64>() + half;
            let most = (1 << 15) - gaps[i + 1..].iter().sum::<i64>() - half;
            let sum = self.values[i - 1] + self.values[i];
            // The crate has limits the other way round besides: no accepted gap set does, or this panics.
            let centre = ((sum >> 1) + (sum & 1)).clamp(least, most);
            let centre = self.cut(centre);
            self.store(i - 1, centre - half);
            self.store(i, self.values[i - 1] + gaps[i]);
        }
    }

    fn fall_back(&mut self, gaps: &[i64]) {
        let n = self.values.len();
        self.values.sort_unstable();
        self.store(0, self.values[0].max(gaps[0]));
        for (i, gap) in (1..n).zip(&gaps[1..]) {
            let sum = (self.values[i - 1] + gap).clamp(i16::MIN.into(), i16::MAX.into());
            self.store(i, self.values[i].max(sum));
        }
        self.store(n - 1, self.values[n - 1].min((1 << 15) - gaps[n]));
        for i in (0..n - 1).rev() {
            self.store(i, self.values[i].min(self.values[i + 1] - gaps[i + 1]));
        }
    }
}

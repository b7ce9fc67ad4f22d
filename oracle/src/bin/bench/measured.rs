//! What was measured of the rows, and what follows from it.

use crate::counting;
use crate::row::Row;
use crate::timing;

/// Of each side in the order of `side::SIDES`; none of one that has no such call.
pub type Values = Vec<Option<f64>>;

/// Of one row.
pub struct Measured {
    pub group: &'static str,
    pub name: String,
    /// Nanoseconds a unit.
    pub times: Values,
    /// Instructions a unit, if they could be counted.
    pub counts: Option<Values>,
}

pub fn measure(rows: &mut [Row], rounds: u32) -> Vec<Measured> {
    rows.iter_mut().for_each(Row::agree);
    let times = timing::times(rows, rounds);
    let mut counts = counting::counts(rows).map(Vec::into_iter);
    let one = |(row, times): (&Row, Values)| Measured {
        group: row.group,
        name: row.name.clone(),
        times,
        counts: counts.as_mut().and_then(Iterator::next),
    };
    rows.iter().zip(times).map(one).collect()
}

/// Ours to each of the others.
pub fn ratios(sides: &[Option<f64>]) -> impl Iterator<Item = Option<f64>> + '_ {
    sides[1..].iter().map(|other| Some(sides[0]? / (*other)?))
}

impl Measured {
    /// Ours to the faster of the others.
    pub fn to_the_faster(&self) -> f64 {
        ratios(&self.times).flatten().fold(0.0, f64::max)
    }
}

/// The straight line nearest to points, by least squares.
pub struct Line {
    pub slope: f64,
    pub start: f64,
}

impl Line {
    pub fn near(points: &[(f64, f64)]) -> Self {
        let n = points.len() as f64;
        let sum = |term: fn(&(f64, f64)) -> f64| points.iter().map(term).sum::<f64>();
        let (xs, ys) = (sum(|p| p.0), sum(|p| p.1));
        let slope = (n * sum(|p| p.0 * p.1) - xs * ys) / (n * sum(|p| p.0 * p.0) - xs * xs);
        Line {
            slope,
            start: (ys - slope * xs) / n,
        }
    }

    pub fn at(&self, x: f64) -> f64 {
        self.start + self.slope * x
    }

    /// How far the farthest point is off the line, as a share of the point.
    pub fn farthest(&self, points: &[(f64, f64)]) -> f64 {
        let off = |&(x, y): &(f64, f64)| ((y - self.at(x)) / y).abs();
        points.iter().map(off).fold(0.0, f64::max)
    }
}

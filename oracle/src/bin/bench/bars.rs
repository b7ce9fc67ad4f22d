//! The times as ratios, row by row a bar for each of the others.

use crate::chart::{Align, Chart, COLOURS};
use crate::measured::{ratios, Measured};
use crate::side::SIDES;

const LEFT: f64 = 330.0;
const TOP: f64 = 40.0;
const ROW: f64 = 15.0;
const BAR: f64 = 6.0;
/// The width of a ratio of 1.
const ONE: f64 = 80.0;

pub fn bars(rows: &[Measured]) -> String {
    let most = rows
        .iter()
        .flat_map(|row| ratios(&row.times).flatten())
        .fold(1.0, f64::max);
    let headings = rows.chunk_by(|a, b| a.group == b.group).count();
    let bottom = TOP + ROW * (rows.len() + headings) as f64;
    let mut chart = Chart::new(LEFT + ONE * (most + 0.5), bottom + 10.0);
    scale(&mut chart, most as usize, bottom);
    let mut y = TOP;
    for group in rows.chunk_by(|a, b| a.group == b.group) {
        y += ROW;
        chart.text((10.0, y - 4.0), Align::Start, group[0].group);
        for row in group {
            y += ROW;
            chart.text((LEFT - 6.0, y - 4.0), Align::End, &row.name);
            for (side, ratio) in ratios(&row.times).enumerate() {
                let Some(ratio) = ratio else { continue };
                let corner = (LEFT, y - ROW + 1.0 + BAR * side as f64);
                chart.bar(corner, (ONE * ratio, BAR - 0.5), COLOURS[side + 1]);
            }
        }
    }
    let x = LEFT + ONE;
    chart.line((x, TOP), (x, bottom), "black");
    chart.svg()
}

/// A line at each whole ratio, and what the bars are.
fn scale(chart: &mut Chart, most: usize, bottom: f64) {
    for ratio in 0..=most {
        let x = LEFT + ONE * ratio as f64;
        chart.line((x, TOP), (x, bottom), "#dddddd");
        chart.text((x, TOP - 4.0), Align::Middle, &ratio.to_string());
    }
    chart.text(
        (10.0, 14.0),
        Align::Start,
        "Our time as a ratio; left of 1 ours is faster",
    );
    for (side, name) in SIDES.iter().enumerate().skip(1) {
        let x = LEFT + 100.0 * (side - 1) as f64;
        chart.bar((x, 6.0), (10.0, 8.0), COLOURS[side]);
        chart.text((x + 14.0, 14.0), Align::Start, &format!("to {name}"));
    }
}

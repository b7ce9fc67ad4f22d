//! Time and instructions against the symbols of a frame.

use crate::chart::{Align, Chart, COLOURS};
use crate::measured::Line;
use crate::side::SIDES;

const PANEL: (f64, f64) = (420.0, 300.0);
const MARGIN: f64 = 60.0;

/// One side's points of one kind of frame.
pub struct Series {
    pub side: usize,
    pub kind: &'static str,
    pub points: Vec<(f64, f64)>,
}

/// A panel for each quantity that has points.
pub fn plot(panels: &[(&str, Vec<Series>)]) -> String {
    let width = (PANEL.0 + MARGIN) * panels.len() as f64 + 20.0;
    let mut chart = Chart::new(width, PANEL.1 + 2.0 * MARGIN);
    for (i, (title, series)) in panels.iter().enumerate() {
        let corner = (MARGIN + (PANEL.0 + MARGIN) * i as f64, MARGIN + PANEL.1);
        panel(&mut chart, corner, title, series);
    }
    for (side, name) in SIDES.iter().enumerate() {
        let x = MARGIN + 100.0 * side as f64;
        chart.point((x, 16.0), COLOURS[side]);
        chart.text((x + 6.0, 20.0), Align::Start, name);
    }
    chart.svg()
}

/// The points of each series and the line nearest to them, from a corner at the lower left.
fn panel(chart: &mut Chart, (left, bottom): (f64, f64), title: &str, series: &[Series]) {
    let all = || series.iter().flat_map(|series| &series.points);
    let most_x = all().map(|point| point.0).fold(0.0, f64::max);
    let most_y = all().map(|point| point.1).fold(0.0, f64::max);
    let place = |(x, y): (f64, f64)| (left + PANEL.0 * x / most_x, bottom - PANEL.1 * y / most_y);
    chart.text((left, bottom - PANEL.1 - 10.0), Align::Start, title);
    for tick in 0..=4 {
        let (x, y) = (
            most_x * f64::from(tick) / 4.0,
            most_y * f64::from(tick) / 4.0,
        );
        let ((across, _), (_, up)) = (place((x, 0.0)), place((0.0, y)));
        chart.line((left, up), (left + PANEL.0, up), "#dddddd");
        chart.text((left - 4.0, up + 4.0), Align::End, &format!("{y:.0}"));
        chart.text((across, bottom + 14.0), Align::Middle, &format!("{x:.0}"));
    }
    chart.text(
        (left + PANEL.0 / 2.0, bottom + 30.0),
        Align::Middle,
        "symbols",
    );
    for Series { side, points, .. } in series {
        let (line, end) = (Line::near(points), points[points.len() - 1].0);
        chart.line(
            place((0.0, line.start)),
            place((end, line.at(end))),
            COLOURS[*side],
        );
        for &point in points {
            chart.point(place(point), COLOURS[*side]);
        }
    }
}

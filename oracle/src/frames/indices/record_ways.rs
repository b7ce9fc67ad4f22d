//! Which ways a record takes along the syntax of its frame, read or written.

use super::{Call, Record};
use crate::domain::order;
use crate::ways::ways;

ways! { Way, WAYS:
    Inactive "signal type 0",
    Unvoiced "1",
    Voiced "2",
    GainAlone "gain independent",
    GainAfter "conditional",
    Down "residual extended downward",
    Upward "upward",
    Lowest "residual -10",
    Highest "10",
    InterpCoded "interpolation coded",
    InterpFixed "fixed",
    Contour8Of2 "contour of 8 kHz, 2 subframes",
    Contour8Of4 "8 kHz, 4",
    ContourOf2 "above, 2",
    ContourOf4 "above, 4",
    ScaleCoded "scale coded",
    ScaleFixed "fixed at 0",
    Period0 "period 0",
    Period1 "1",
    Period2 "2",
}

pub fn record_ways(call: &Call, record: &Record, mark: &mut impl FnMut(usize, bool)) {
    let mut mark = |way: Way, taken| mark(way as usize, taken);
    mark(Way::Inactive, record.signal_type == 0);
    mark(Way::Unvoiced, record.signal_type == 1);
    mark(Way::Voiced, record.signal_type == 2);
    mark(Way::GainAlone, call.mode != 2);
    mark(Way::GainAfter, call.mode == 2);
    let residuals = &record.nlsf[1..=order(call.size.khz)];
    mark(Way::Down, residuals.iter().any(|&r| r <= -4));
    mark(Way::Upward, residuals.iter().any(|&r| r >= 4));
    mark(Way::Lowest, residuals.contains(&-10));
    mark(Way::Highest, residuals.contains(&10));
    mark(Way::InterpCoded, call.size.subframes == 4);
    mark(Way::InterpFixed, call.size.subframes == 2);
    if record.signal_type == 2 {
        pitch_ways(call, record, &mut mark);
    }
}

fn pitch_ways(call: &Call, record: &Record, mark: &mut impl FnMut(Way, bool)) {
    let (khz, subframes) = (call.size.khz, call.size.subframes);
    mark(Way::Contour8Of2, khz == 8 && subframes == 2);
    mark(Way::Contour8Of4, khz == 8 && subframes == 4);
    mark(Way::ContourOf2, khz > 8 && subframes == 2);
    mark(Way::ContourOf4, khz > 8 && subframes == 4);
    mark(Way::ScaleCoded, call.mode == 0);
    mark(Way::ScaleFixed, call.mode != 0);
    mark(Way::Period0, record.period == 0);
    mark(Way::Period1, record.period == 1);
    mark(Way::Period2, record.period == 2);
}

//! aFRR: band (004, lines 273 on). The setpoint is in the record.

use crate::power::{Limits, Ratio};
use crate::sheet::{percent, Sheet};

/// Lowest and highest of s(first) to s(last). `setpoints[j]` is that of second j, counted from the first closed book on, and
/// before second 0 all are 0.
fn lowest_and_highest(setpoints: &[i64], first: i64, last: i64) -> (i64, i64) {
    if last < 0 {
        return (0, 0);
    }
    let inside = &setpoints[first.max(0) as usize..=last as usize];
    let (mut lowest, mut highest) = if first < 0 { (0, 0) } else { (inside[0], inside[0]) };
    for &s in inside {
        lowest = lowest.min(s);
        highest = highest.max(s);
    }
    (lowest, highest)
}

/// The larger of the minimum gradient range and "(highest minus lowest of s(t-300) to s(t-30)), divided by 270", where the
/// reaction time "stands for the 30 in both windows, and the gradient divides by 300 minus it".
pub fn gradient(setpoints: &[i64], now: i64, sheet: &Sheet) -> Ratio {
    let q = sheet.afrr_reaction;
    let (lowest, highest) = lowest_and_highest(setpoints, now - 300, now - q);
    Ratio::new((highest - lowest).max(sheet.least_range), 300 - q)
}

/// "Held is 'up' for s above 0, 'down' below, the larger at 0."
pub fn held(s: i64, up: i64, down: i64) -> i64 {
    if s > 0 {
        up
    } else if s < 0 {
        down
    } else {
        up.max(down)
    }
}

/// The limits at the last second of `setpoints`, which holds those of all seconds, closed books' first; `last` has the
/// carried limits of the second before, 0 and 0 before the first.
pub fn limits(setpoints: &[i64], last: Limits, up: i64, down: i64, sheet: &Sheet) -> Limits {
    let now = setpoints.len() as i64 - 1;
    let s = setpoints[now as usize];
    let gradient = gradient(setpoints, now, sheet);
    let floor = percent(sheet.afrr_floor, held(s, up, down));
    let (lowest, highest) = lowest_and_highest(setpoints, now - sheet.afrr_reaction, now - 1);
    let s = Ratio::from(s);
    Limits {
        low: Ratio::from(lowest).min(last.low + gradient).min(s - floor),
        high: Ratio::from(highest).max(last.high - gradient).max(s + floor),
    }
}

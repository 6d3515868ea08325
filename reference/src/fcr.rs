//! FCR: setpoint (004, table 4-1) and band (004, lines 234 to 260).

use crate::power::{setpoint_at, Limits, Ratio};
use crate::sheet::{percent, Sheet};

/// 0 in the zero zone, which document 02 (W4) makes "|f| up to 9"; "-P for f at least 200; P for f at most -200; else
/// -f × P / 200, cut toward zero."
pub fn setpoint(deviation: i64, held: i64) -> i64 {
    if deviation.abs() <= 9 {
        0
    } else if deviation >= 200 {
        -held
    } else if deviation <= -200 {
        held
    } else {
        -deviation * held / 200
    }
}

/// The weight of a change of `size` kW at `age` seconds: "d for a up to" the reaction time, "past the first the weight is
/// d × (w - a) / w, up to age w".
pub fn weight(size: i64, age: i64, sheet: &Sheet) -> Ratio {
    let w = sheet.fcr_time();
    if age <= sheet.fcr_reaction {
        Ratio::from(size)
    } else if age <= w {
        Ratio::new(size * (w - age), w)
    } else {
        Ratio::from(0)
    }
}

/// The limits at the last second of `setpoints`, which holds those of all seconds, closed books' first.
pub fn limits(setpoints: &[i64], held: i64, sheet: &Sheet) -> Limits {
    let now = setpoints.len() as i64 - 1;
    let s = setpoint_at(setpoints, now);
    let mut falls = Ratio::from(0);
    let mut rises = Ratio::from(0);
    for age in 0..=sheet.fcr_time() {
        let j = now - age;
        let before = setpoint_at(setpoints, j - 1);
        let after = setpoint_at(setpoints, j);
        if after < before && after >= s {
            falls = falls + weight(before - after, age, sheet);
        }
        if after > before && after <= s {
            rises = rises + weight(after - before, age, sheet);
        }
    }
    let floor = percent(sheet.fcr_floor, held);
    Limits {
        low: Ratio::from(s) - rises.max(floor),
        high: Ratio::from(s) + falls.max(floor),
    }
}

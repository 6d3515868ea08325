//! The shipped book of twenty minutes in which one kind is short for a while: a battery park, U, that sells FCR for A and
//! aFRR for B in the first quarter hour and aFRR for B alone after it. A and B have plants of their own.

use super::random::Random;
use super::Second;
use crate::fcr;
use crate::record::Record;

/// U's FCR is A's, U's aFRR is B's.
pub const OWNER: u8 = 2;
pub const SECONDS: i64 = 1_200;

/// When U's FCR goes off: a quarter hour.
pub const FCR_ENDS: i64 = 900;

/// The minute in which U feeds in too little, and by how much.
pub const SHORT_FROM: i64 = 1_020;
pub const SHORT_TO: i64 = 1_079;
const MISSING: i64 = 1_100;

/// A figure that moves by 0 or by a step up or down, between two ends.
fn moved(value: i64, step: i64, lowest: i64, highest: i64, random: &mut Random) -> i64 {
    (value + step * random.within(-1, 1)).clamp(lowest, highest)
}

/// The seconds: every plant feeds in its setpoints, give or take 20 kW, but for the unit in that one minute.
pub fn short_example() -> Vec<Second> {
    let mut random = Random::new(14);
    let mut seconds = Vec::new();
    // steps of 3 mHz up to 39: whether exactly 10 mHz counts as a call does not matter to this book
    let mut deviation = 0;
    let (mut unit_afrr, mut own_afrr) = (2_000, 3_000);
    for now in 0..SECONDS {
        deviation = moved(deviation, 3, -39, 39, &mut random);
        if now % 4 == 0 {
            unit_afrr = moved(unit_afrr, 60, 1_500, 4_500, &mut random);
            own_afrr = moved(own_afrr, 150, -6_000, 9_000, &mut random);
        }
        let unit_fcr_held = if now < FCR_ENDS { 4_000 } else { 0 };
        let unit_fcr = fcr::setpoint(deviation, unit_fcr_held);
        let missing = if (SHORT_FROM..=SHORT_TO).contains(&now) { MISSING } else { 0 };
        let (unit_point, a_point, b_point) = (-500, 18_000, 42_000);

        let mut unit = Record {
            measured: (unit_point + unit_fcr + unit_afrr - missing) as i32,
            working_point: unit_point as i32,
            fcr_held: unit_fcr_held as i32,
            afrr_held_up: 5_000,
            afrr_held_down: 5_000,
            afrr_setpoint: unit_afrr as i32,
            deviation: deviation as i16,
            status: if now < FCR_ENDS { 3 } else { 2 },
            ..Record::default()
        };
        // a pool's held power and setpoint are those of all it sells, its measured value that of its own plants
        let mut a = Record {
            measured: (a_point + fcr::setpoint(deviation, 10_000) - unit_fcr) as i32,
            working_point: a_point as i32,
            fcr_held: 10_000,
            deviation: deviation as i16,
            status: 1,
            ..Record::default()
        };
        let mut b = Record {
            measured: (b_point + own_afrr) as i32,
            working_point: b_point as i32,
            afrr_held_up: 30_000,
            afrr_held_down: 30_000,
            afrr_setpoint: (unit_afrr + own_afrr) as i32,
            deviation: deviation as i16,
            status: 2,
            ..Record::default()
        };
        for record in [&mut unit, &mut a, &mut b] {
            record.measured += random.within(-20, 20) as i32;
        }
        seconds.push([unit, a, b]);
    }
    seconds
}

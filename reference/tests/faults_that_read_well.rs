//! Document 01's five "faults that read well": for each a small input, the row given on it, and the row that the fault
//! gives, worked out from the reference's own parts with the one step done wrongly.

mod full_case;

use full_case::full_case;
use reference::book::Book;
use reference::maker::{second_bytes, Second};
use reference::plant::{Plant, Row};
use reference::power::{Limits, Ratio};
use reference::record::Record;
use reference::sharing::{parts, Part};

fn alone(unit: Record) -> Second {
    [unit, Record::default(), Record::default()]
}

/// The rows of the last of these seconds.
fn rows(owner: u8, seconds: &[Second]) -> [Row; 3] {
    let mut book = Book::default();
    let mut rows = None;
    for second in seconds {
        rows = Some(book.second(owner, &second_bytes(second)).expect("an accepted second"));
    }
    rows.expect("a second")
}

/// The row of a plant's next second.
fn next(plant: &mut Plant, record: &Record) -> Row {
    let accepted = plant.consider(&record.write()).expect("an accepted second");
    plant.second(accepted, record.measured as i64, record.working_point as i64)
}

fn shares(row: &Row) -> [i64; 3] {
    row.kinds.map(|kind| kind.share)
}

fn actuals(row: &Row) -> [i64; 3] {
    row.kinds.map(|kind| kind.actual)
}

/// Tolerances 5 and 5, error 1. Each share alone is a half: rounded to the nearest 1 and 1, rounded down 0 and 0;
/// either way the plant's kW no longer add up.
#[test]
fn rounding_each_share_alone() {
    let error = 1;
    let unit = Record {
        measured: error as i32,
        fcr_held: 100,
        afrr_held_up: 100,
        status: 3,
        ..Record::default()
    };
    let [given, _, _] = rows(0, &[alone(unit)]);
    assert_eq!(shares(&given), [1, 0, 0]);
    let tolerances = given.kinds.map(|kind| kind.band.high - kind.setpoint);
    let total: i64 = tolerances.iter().sum();
    let nearest = tolerances.map(|tolerance| (2 * error * tolerance + total) / (2 * total));
    let down = tolerances.map(|tolerance| error * tolerance / total);
    assert_eq!(nearest, [1, 1, 0]);
    assert_eq!(down, [0, 0, 0]);
}

/// The full case: error 31, bands -120 to 0 around -100 and -50 to 50 around 0. With the widths 120 and 100 as
/// weights FCR gets 17 and aFRR 14.
#[test]
fn weighting_both_directions_tolerances() {
    let [given, _, _] = rows(2, &[full_case()]);
    assert_eq!(shares(&given), [21, 10, 0]);
    let widths = given.kinds.map(|kind| kind.band.high - kind.band.low);
    let error = shares(&given).iter().sum();
    assert_eq!(parts(error, widths, [true, true, false]).map(Part::whole), [17, 14, 0]);
}

/// The full case: with 4,931 kW for both pools A gets -69 and B -49, the unit's error twice.
#[test]
fn passing_the_units_measured_value_to_both_pools() {
    let [unit, a, b] = full_case();
    let [_, given_a, given_b] = rows(2, &[full_case()]);
    assert_eq!((actuals(&given_a), actuals(&given_b)), ([-79, 0, 0], [0, 30, 0]));
    let with_the_unit = |pool: Record| Record {
        measured: pool.measured + unit.measured,
        working_point: pool.working_point + unit.working_point,
        ..pool
    };
    let fault_a = next(&mut Plant::default(), &with_the_unit(a));
    let fault_b = next(&mut Plant::default(), &with_the_unit(b));
    assert_eq!((actuals(&fault_a), actuals(&fault_b)), ([-69, 0, 0], [0, -49, 0]));
}

/// A call of 9,000 kW at 0, one of -100 kW at 10, where the signal gives 100. The old ramp counts on: -120 to 10,800,
/// so an error of 107 goes to mFRR. Without the leftover the band is -120 to 100, and FCR alone has tolerance: 50.
#[test]
fn dropping_a_leftover_when_the_new_call_arrives() {
    let record = |now: i32| {
        let mut unit = Record {
            fcr_held: 1_000,
            measured: 10 * now,
            status: 5,
            ..Record::default()
        };
        if now == 0 {
            (unit.call, unit.mfrr_target, unit.delivery_end) = (1, 9_000, 900);
        }
        if now == 10 {
            unit.measured += 107;
            (unit.call, unit.mfrr_target, unit.delivery_end) = (1, -100, 1_800);
        }
        unit
    };
    let mut plant = Plant::default();
    for now in 0..10 {
        next(&mut plant, &record(now));
    }
    let given = next(&mut plant.clone(), &record(10));
    assert_eq!((given.kinds[2].band.low, given.kinds[2].band.high), (-120, 10_800));
    assert_eq!(actuals(&given), [0, 0, 207]);

    let mut accepted = plant.consider(&record(10).write()).expect("a free place");
    accepted.called.as_mut().expect("a call").leftovers.clear();
    let fault = plant.second(accepted, record(10).measured as i64, 0);
    assert_eq!((fault.kinds[2].band.low, fault.kinds[2].band.high), (-120, 100));
    assert_eq!(actuals(&fault), [107, 0, 100]);
}

/// aFRR held up 10,000, setpoint 10,000 from second 0: at 285 the lower limit is 256 × 10,000 / 270 = 9,481.48,
/// published 9,482. Rounded inward each second it would be 256 × 38, at most 9,500; rounded down or to the nearest
/// 256 × 37 = 9,472.
#[test]
fn rounding_the_carried_afrr_limit_each_second() {
    let unit = Record {
        measured: 10_000,
        afrr_held_up: 10_000,
        afrr_setpoint: 10_000,
        status: 2,
        ..Record::default()
    };
    let low_at_285 = |carried: fn(Limits) -> Limits| {
        let mut plant = Plant::default();
        for _ in 0..=285 {
            next(&mut plant, &unit);
            plant.afrr_limits = carried(plant.afrr_limits);
        }
        plant.afrr_limits.published().low
    };
    let inward = |limits: Limits| Limits {
        low: limits.low.up().into(),
        high: limits.high.down().into(),
    };
    let down = |limits: Limits| Limits {
        low: limits.low.down().into(),
        high: limits.high.down().into(),
    };
    let nearest = |limits: Limits| Limits {
        low: (limits.low + Ratio::new(1, 2)).down().into(),
        high: (limits.high + Ratio::new(1, 2)).down().into(),
    };
    assert_eq!(low_at_285(|limits| limits), 9_482);
    assert_eq!(low_at_285(inward), 9_500);
    assert_eq!(low_at_285(down), 9_472);
    assert_eq!(low_at_285(nearest), 9_472);
}

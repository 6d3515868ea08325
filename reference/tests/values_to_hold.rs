//! Every value of document 01's "Values to hold", as document 02 changes them, and the full case.

mod full_case;

use full_case::full_case;
use reference::line::{row_lines, second_line};
use reference::maker::book_bytes;
use reference::plant::{Plant, Row};
use reference::program::output_of;
use reference::record::Record;
use reference::sharing::{parts, Part};
use reference::sheet::Sheet;
use reference::{fcr, mfrr, power};

/// The row of a plant's next second, on its own.
fn second(plant: &mut Plant, record: Record) -> Row {
    let accepted = plant.consider(&record.write()).expect("an accepted second");
    plant.second(accepted, record.measured as i64, record.working_point as i64)
}

#[test]
fn the_full_case() {
    let book = book_bytes(2, &[full_case()]);
    assert_eq!(
        output_of(&book, second_line),
        "0 U -79 10 0 0 A -79 0 0 0 B 0 30 0 0\nsum A -79 B 30 open 0 due -49\n"
    );
}

#[test]
fn the_full_case_row_by_row() {
    let book = book_bytes(2, &[full_case()]);
    assert_eq!(
        output_of(&book, row_lines),
        "0 U -100 -120 0 21 -79 0 -50 50 10 10 0 0 0 0 0 0\n\
         0 A -100 -120 0 21 -79 0 0 0 0 0 0 0 0 0 0 0\n\
         0 B 0 0 0 0 0 0 -50 50 30 30 0 0 0 0 0 0\n\
         sum A -79 B 30 open 0 due -49\n"
    );
}

#[test]
fn fcr_setpoints() {
    assert_eq!(fcr::setpoint(9, 400), 0);
    assert_eq!(fcr::setpoint(-9, 400), 0);
    assert_eq!(fcr::setpoint(10, 400), -20);
    assert_eq!(fcr::setpoint(-10, 400), 20);
    assert_eq!(fcr::setpoint(11, 400), -22);
    assert_eq!(fcr::setpoint(199, 400), -398);
    assert_eq!(fcr::setpoint(200, 400), -400);
    assert_eq!(fcr::setpoint(-200, 400), 400);
    assert_eq!(fcr::setpoint(-50, 333), 83);
    assert_eq!(fcr::setpoint(50, 333), -83);
}

/// "FCR held 400, one fall 0 to -100: upper tolerance 100 at age 15, 46 at 16, 20 at 28."
#[test]
fn fcr_upper_tolerance_after_one_fall() {
    for quiet in [0, 1, 50] {
        let mut plant = Plant::default();
        for _ in 0..quiet {
            second(&mut plant, Record { fcr_held: 400, status: 1, ..Record::default() });
        }
        for age in 0..=40 {
            let row = second(&mut plant, Record { fcr_held: 400, deviation: 50, status: 1, ..Record::default() });
            let fcr = row.kinds[0];
            assert_eq!(fcr.setpoint, -100);
            assert_eq!(fcr.band.low, -120, "age {}", age);
            let tolerance = fcr.band.high - fcr.setpoint;
            match age {
                0..=15 => assert_eq!(tolerance, 100, "age {}", age),
                16 => assert_eq!(tolerance, 46),
                28.. => assert_eq!(tolerance, 20),
                _ => assert_eq!(tolerance, (100 * (30 - age) / 30).max(20), "age {}", age),
            }
        }
    }
}

/// "aFRR held up 10,000, setpoint 10,000 from second 0: lower limit 0 at 29, 38 at 30, 9,482 at 285, 9,500 at 286": values of the
/// sheet with 5,000 kW. Those of the default sheet are the same, since 10,000 kW are in the window wherever the limit moves.
#[test]
fn afrr_lower_limit_after_a_rise() {
    for least_range in [5_000, 1_000] {
        let mut plant = Plant::open(Sheet { least_range, ..Sheet::default() });
        for now in 0..=400 {
            let record = Record { afrr_held_up: 10_000, afrr_setpoint: 10_000, status: 2, ..Record::default() };
            let afrr = second(&mut plant, record).kinds[1];
            assert_eq!(afrr.band.high, 10_500);
            match now {
                0..=29 => assert_eq!(afrr.band.low, 0, "second {}", now),
                30 => assert_eq!(afrr.band.low, 38),
                285 => assert_eq!(afrr.band.low, 9_482),
                286.. => assert_eq!(afrr.band.low, 9_500, "second {}", now),
                _ => {}
            }
        }
    }
}

/// "Call at 0, target 9,000, end 900: 10 at 1, 9,000 at 900, 8,990 at 901, 0 at 1,800; band 0 to 10,800 at 0."
#[test]
fn mfrr_call() {
    let mut plant = Plant::default();
    for now in 0..=1_900 {
        let mut record = Record { status: 4, ..Record::default() };
        if now == 0 {
            record.call = 1;
            record.mfrr_target = 9_000;
            record.delivery_end = 900;
        }
        let mfrr = second(&mut plant, record).kinds[2];
        match now {
            0 => assert_eq!((mfrr.setpoint, mfrr.band.low, mfrr.band.high), (0, 0, 10_800)),
            1 => assert_eq!(mfrr.setpoint, 10),
            900 => assert_eq!(mfrr.setpoint, 9_000),
            901 => assert_eq!(mfrr.setpoint, 8_990),
            1_800 => assert_eq!((mfrr.setpoint, mfrr.band.low, mfrr.band.high), (0, 0, 10_800)),
            1_801.. => assert_eq!((mfrr.setpoint, mfrr.band.low, mfrr.band.high), (0, 0, 0)),
            _ => {}
        }
    }
}

/// The shares with their extra kW.
fn shares(magnitude: i64, tolerances: [i64; 3], on: [bool; 3]) -> [i64; 3] {
    parts(magnitude, tolerances, on).map(Part::whole)
}

/// "Tolerances 5, 5, error 1: 1, 0. 1, 1, 1, error 4: 2, 1, 1."
#[test]
fn ties() {
    assert_eq!(shares(1, [5, 5, 0], [true, true, false]), [1, 0, 0]);
    assert_eq!(shares(1, [5, 5, 0], [true, true, true]), [1, 0, 0]);
    assert_eq!(shares(1, [0, 5, 5], [false, true, true]), [0, 1, 0]);
    assert_eq!(shares(4, [1, 1, 1], [true; 3]), [2, 1, 1]);
    assert_eq!(shares(5, [1, 1, 1], [true; 3]), [2, 2, 1]);
}

#[test]
fn no_tolerance() {
    assert_eq!(shares(7, [0, 0, 0], [false, true, true]), [0, 7, 0]);
    assert_eq!(shares(7, [0, 0, 0], [false, false, true]), [0, 0, 7]);
    assert_eq!(shares(7, [0, 0, 3], [true, true, true]), [0, 0, 7]);
}

#[test]
fn rounding_inward() {
    let parts = |number| power::Ratio::new(number, 540);
    let band = |low, high| power::Limits { low: parts(low), high: parts(high) }.published();
    assert_eq!(band(-541, 541), power::Band { low: -1, high: 1 });
    assert_eq!(band(-540, 540), power::Band { low: -1, high: 1 });
    assert_eq!(band(-539, 539), power::Band { low: 0, high: 0 });
    assert_eq!(band(1, 1_079), power::Band { low: 1, high: 1 });
    assert_eq!(band(-1_079, -1), power::Band { low: -1, high: -1 });
}

/// Only the quotient is cut, then added; phases are closed at their last second.
#[test]
fn ramps_and_phases() {
    let call = mfrr::Call { at: 0, start: 10, target: 0, end: 900 };
    assert_eq!(call.setpoint(0), 10);
    assert_eq!(call.setpoint(1), 10);
    assert_eq!(call.setpoint(90), 9);
    let call = mfrr::Call { at: 100, start: 0, target: -10, end: 1_800 };
    assert_eq!(call.phase(1_000), mfrr::Phase::RampingUp);
    assert_eq!(call.phase(1_001), mfrr::Phase::Delivering);
    assert_eq!(call.phase(1_800), mfrr::Phase::Delivering);
    assert_eq!(call.phase(1_801), mfrr::Phase::RampingDown);
    assert_eq!(call.phase(2_700), mfrr::Phase::RampingDown);
    assert_eq!(call.phase(2_701), mfrr::Phase::Resting);
    assert_eq!(call.setpoint(1_801), -10);
    assert_eq!(call.setpoint(1_890), -9);
    assert_eq!(call.setpoint(2_700), 0);
}

/// A leftover's place is free one second after its last one.
#[test]
fn eight_places() {
    let called = |signal: mfrr::Signal, now: i64| signal.called(now, 100 + now, 1_800, &Sheet::default());
    let mut signal = mfrr::Signal::default();
    for now in 0..=8 {
        signal = called(signal, now).expect("a free place");
    }
    assert_eq!(signal.leftovers.len(), 8);
    for now in [9, 500, 899, 900] {
        assert_eq!(called(signal.clone(), now), Err(10), "second {}", now);
    }
    let later = called(signal, 901).expect("the place of the first leftover");
    assert_eq!(later.leftovers.len(), 8);
    assert_eq!(later.leftovers[7].last, 908);
}

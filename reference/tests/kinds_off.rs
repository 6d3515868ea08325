//! Document 02, W2: 11 for FCR, 24 for aFRR, 25 for mFRR, each off with a setpoint that isn't 0, the first that applies.

use reference::plant::{Plant, FAULT};
use reference::record::Record;

/// A plant whose mFRR signal gives 10 kW at its next second, with a record that has a setpoint for each wanted kind.
fn refused(wanted: [bool; 3], status: u8) -> Option<u8> {
    let mut plant = Plant::default();
    let call = Record {
        mfrr_target: if wanted[2] { 9_000 } else { 0 },
        delivery_end: 900,
        call: 1,
        status: 7,
        ..Record::default()
    };
    let accepted = plant.consider(&call.write()).expect("a call");
    plant.second(accepted, 0, 0);
    let record = Record {
        fcr_held: 400,
        deviation: if wanted[0] { 50 } else { 0 },
        afrr_setpoint: if wanted[1] { -1 } else { 0 },
        status: status | FAULT, // off at second 1
        ..Record::default()
    };
    plant.consider(&record.write()).err()
}

/// Every set of kinds with a setpoint under every status: refused exactly where one of them is off, with the number of
/// the first such kind.
#[test]
fn the_first_kind_that_is_off() {
    for setpoints in 0..8u8 {
        for status in 0..8u8 {
            let wanted = [0, 1, 2].map(|kind| setpoints >> kind & 1 == 1);
            let number = match setpoints & !status {
                0 => None,
                off if off & 1 != 0 => Some(11),
                off if off & 2 != 0 => Some(24),
                _ => Some(25),
            };
            assert_eq!(refused(wanted, status), number, "setpoints {:03b}, status {:03b}", setpoints, status);
        }
    }
}

/// "mFRR's setpoint at this second with this second's call taken in": a call onto a resting signal is 0 at its own second.
#[test]
fn a_call_while_mfrr_is_off() {
    let call = Record {
        mfrr_target: 9_000,
        delivery_end: 900,
        call: 1,
        status: 0,
        ..Record::default()
    };
    let mut plant = Plant::default();
    let accepted = plant.consider(&call.write()).expect("its value is 0 at its own second");
    plant.second(accepted, 0, 0);
    assert_eq!(plant.consider(&Record::default().write()).err(), Some(25));
}

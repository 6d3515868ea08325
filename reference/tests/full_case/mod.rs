//! Document 01's full case, for several tests.

use reference::record::Record;

/// Its second: the records of U, A and B.
pub fn full_case() -> [Record; 3] {
    let unit = Record {
        measured: 4931,
        working_point: 5000,
        fcr_held: 400,
        deviation: 50,
        afrr_held_up: 1000,
        afrr_held_down: 1000,
        status: 3,
        ..Record::default()
    };
    let a = Record {
        fcr_held: 400,
        deviation: 50,
        status: 1,
        ..Record::default()
    };
    let b = Record {
        measured: 200,
        working_point: 180,
        afrr_held_up: 1000,
        afrr_held_down: 1000,
        status: 2,
        ..Record::default()
    };
    [unit, a, b]
}

//! Document 02, W8: shares with their remainders, and what `reference_shares` prints.

mod full_case;

use full_case::full_case;
use reference::book::Book;
use reference::line::{row_lines, second_line, share_lines};
use reference::maker::families::{make, WHOLE};
use reference::maker::{book_bytes, Second};
use reference::plant::Row;
use reference::program::{for_each_second, output_of};
use reference::record::Record;
use reference::sharing::{parts, Part};

fn printed(owner: u8, second: Second) -> String {
    output_of(&book_bytes(owner, &[second]), share_lines)
}

fn alone(unit: Record) -> Second {
    [unit, Record::default(), Record::default()]
}

/// The unit's line of a book of one second.
fn line(unit: Record) -> String {
    printed(0, alone(unit)).lines().next().unwrap_or_default().to_string()
}

/// U: error 4,931 - 5,000 + 100 = 31, tolerances 100 and 50, T = 150. 31 × 100 = 20 × 150 + 100 and 31 × 50 = 10 × 150 + 50, so
/// 30 kW rounded down and the missing one to FCR. A: measured - working point as shared is U's FCR, -79, so the error is 21, all
/// of it FCR's: 21 × 100 = 21 × 100 + 0. B: 20 of its own and U's aFRR, 10: error 30, 30 × 50 = 30 × 50 + 0.
#[test]
fn the_full_case() {
    assert_eq!(
        printed(2, full_case()),
        "0 U 31 150 100 20 100 1 50 10 50 0 0 0 0 0\n\
         0 A 21 100 100 21 0 0 0 0 0 0 0 0 0 0\n\
         0 B 30 50 0 0 0 0 50 30 0 0 0 0 0 0\n\
         sum A -79 B 30 open 0 due -49\n"
    );
}

/// FCR held 400 and aFRR held 1,000, both at 0: tolerances 20 and 50, T = 70, in both directions.
fn both(measured: i32) -> Record {
    Record {
        measured,
        fcr_held: 400,
        afrr_held_up: 1_000,
        status: 3,
        ..Record::default()
    }
}

/// The error has its sign, all else is of its magnitude. 10 × 20 = 2 × 70 + 60, 10 × 50 = 7 × 70 + 10.
#[test]
fn above_and_below() {
    assert_eq!(line(both(10)), "0 U 10 70 20 2 60 1 50 7 10 0 0 0 0 0");
    assert_eq!(line(both(-10)), "0 U -10 70 20 2 60 1 50 7 10 0 0 0 0 0");
    assert_eq!(line(both(70)), "0 U 70 70 20 20 0 0 50 50 0 0 0 0 0 0");
    assert_eq!(line(both(71)), "0 U 71 70 20 20 20 0 50 50 50 1 0 0 0 0");
}

/// Tolerances in the error's direction: FCR has fallen from 0 to -100, so 100 above it and 20 below.
#[test]
fn tolerances_of_the_direction() {
    let fallen = |measured: i32| Record {
        measured,
        fcr_held: 400,
        deviation: 50,
        status: 1,
        ..Record::default()
    };
    assert_eq!(line(fallen(-93)), "0 U 7 100 100 7 0 0 0 0 0 0 0 0 0 0");
    assert_eq!(line(fallen(-107)), "0 U -7 20 20 7 0 0 0 0 0 0 0 0 0 0");
    assert_eq!(line(fallen(-100)), "0 U 0 100 100 0 0 0 0 0 0 0 0 0 0 0", "an error of 0: above");
}

/// "For T = 0 the share of the first kind on is |error|, the other shares and all remainders are 0 and no extra is given."
#[test]
fn no_tolerance() {
    let on = |status: u8| Record {
        measured: -9,
        status,
        ..Record::default()
    };
    assert_eq!(line(on(7)), "0 U -9 0 0 9 0 0 0 0 0 0 0 0 0 0");
    assert_eq!(line(on(6)), "0 U -9 0 0 0 0 0 0 9 0 0 0 0 0 0");
    assert_eq!(line(on(4)), "0 U -9 0 0 0 0 0 0 0 0 0 0 9 0 0");
}

/// With no kind on the error is measured - working point as shared, and T is 0: the unit's values come to a pool's error.
#[test]
fn no_kind_on() {
    let unit = Record {
        measured: 21,
        working_point: 16,
        fcr_held: 400,
        afrr_held_up: 1_000,
        status: 1,
        ..Record::default()
    };
    let a = Record {
        measured: 100,
        working_point: 130,
        ..Record::default()
    };
    assert_eq!(
        printed(0, [unit, a, Record { status: 8, ..a }]),
        "0 U 5 20 20 5 0 0 0 0 0 0 0 0 0 0\n\
         0 A -25 0 0 0 0 0 0 0 0 0 0 0 0 0\n\
         0 B -30 0 0 0 0 0 0 0 0 0 0 0 0 0\n\
         sum A 0 B 0 open -55 due -55\n"
    );
}

/// Three equal remainders, and two kW missing: 2 × 1 = 0 × 3 + 2 each.
#[test]
fn two_extras() {
    let part = |extra: bool| Part {
        share: 0,
        remainder: 2,
        extra,
    };
    assert_eq!(parts(2, [1, 1, 1], [true; 3]), [part(true), part(true), part(false)]);
}

/// The law of the rounded-down shares, and who gets an extra kW.
fn check(magnitude: i64, tolerances: [i64; 3], on: [bool; 3], parts: [Part; 3]) {
    let total: i64 = tolerances.iter().sum();
    let sum: i64 = parts.iter().map(|part| part.whole()).sum();
    assert_eq!(sum, if on == [false; 3] { 0 } else { magnitude });
    for kind in 0..3 {
        let Part { share, remainder, extra } = parts[kind];
        if !on[kind] {
            assert_eq!(parts[kind], Part::default());
        } else if total > 0 {
            assert_eq!(magnitude * tolerances[kind], share * total + remainder);
            assert!((0..total).contains(&remainder));
        } else {
            let is_first = on.iter().position(|&on| on) == Some(kind);
            assert_eq!((share, remainder, extra), (if is_first { magnitude } else { 0 }, 0, false));
        }
        // an extra kW passes nobody: no larger remainder, and no equal one before it, is without one
        if extra {
            for other in 0..3 {
                let before = parts[other].remainder > remainder || (parts[other].remainder == remainder && other < kind);
                assert!(parts[other].extra || !before);
            }
            assert!(remainder > 0);
        }
    }
}

#[test]
fn small_cases() {
    for status in 0..8 {
        let on = [0, 1, 2].map(|kind| status >> kind & 1 == 1);
        for number in 0..6 * 6 * 6 {
            let mut tolerances = [number % 6, number / 6 % 6, number / 36];
            (0..3).filter(|&kind| !on[kind]).for_each(|kind| tolerances[kind] = 0);
            for magnitude in 0..30 {
                check(magnitude, tolerances, on, parts(magnitude, tolerances, on));
            }
        }
    }
}

/// What a row carries, from its other figures.
fn check_row(row: &Row, on: [bool; 3]) {
    let setpoints: i64 = row.kinds.iter().map(|kind| kind.setpoint).sum();
    let actuals: i64 = row.kinds.iter().map(|kind| kind.actual).sum();
    assert_eq!(row.error, actuals + row.open - setpoints);
    assert_eq!(row.total, row.kinds.iter().map(|kind| kind.tolerance).sum::<i64>());
    for kind in row.kinds {
        let sides = [kind.setpoint - kind.band.low, 0, kind.band.high - kind.setpoint];
        if row.error != 0 {
            assert_eq!(kind.tolerance, sides[(row.error.signum() + 1) as usize]);
        }
        assert_eq!(kind.share, row.error.signum() * kind.part.whole());
        assert_eq!(kind.actual, kind.setpoint + kind.share);
    }
    check(row.error.abs(), row.kinds.map(|kind| kind.tolerance), on, row.kinds.map(|kind| kind.part));
}

/// Every row of books of all families, and what is printed of it. Among them is everything that sharing can meet.
#[test]
fn books_of_all_families() {
    let mut seen = [0; 10];
    for (number, family) in WHOLE.iter().enumerate() {
        let made = make(number as u64 + 12, Some(family)).expect("a family");
        let (mut book, mut text) = (Book::default(), String::new());
        let _ = for_each_second(&mut &made.bytes[..], |owner, bytes| {
            let second = book.seconds();
            let rows = book.second(owner, bytes)?;
            text += &share_lines(second, &rows);
            for (row, record) in rows.iter().zip(bytes.chunks(36)) {
                let on = [0, 1, 2].map(|kind| record[34] >> kind & 1 == 1);
                check_row(row, on);
                let extras = row.kinds.iter().filter(|kind| kind.part.extra).count();
                let tied = |one: usize, other: usize| row.kinds[one].part.remainder == row.kinds[other].part.remainder;
                let things = [
                    row.kinds[0].part.extra,
                    row.kinds[1].part.extra,
                    row.kinds[2].part.extra,
                    extras == 2,
                    row.total > 0 && extras == 0 && row.error != 0,
                    extras == 1 && [(0, 1), (0, 2), (1, 2)].iter().any(|&(one, other)| row.kinds[one].part.extra && tied(one, other)),
                    row.total == 0 && row.error != 0 && on != [false; 3],
                    on == [false; 3] && row.error != 0,
                    row.error == 0 && row.total > 0,
                    row.error < 0,
                ];
                seen.iter_mut().zip(things).for_each(|(count, thing)| *count += thing as u32);
            }
            Ok(())
        });
        let whole = output_of(&made.bytes, share_lines);
        let last = output_of(&made.bytes, second_line).lines().last().map(|line| format!("{}\n", line));
        assert!(whole == text + &last.expect("a last line"), "{}", made.name);
    }
    assert!(seen.iter().all(|&times| times > 20), "{:?}", seen);
}

/// A refusal ends it as in the other programs.
#[test]
fn a_refusal() {
    let mut wrong = full_case();
    wrong[2].call = 2;
    let book = book_bytes(2, &[full_case(), wrong]);
    let lines = output_of(&book, share_lines);
    assert_eq!(lines.lines().count(), 4);
    assert!(lines.ends_with("\nrefused 7 at 1\n"));
    assert_eq!(output_of(&[], share_lines), "refused 12 at 0\n");
    assert!(output_of(&book, row_lines).ends_with("\nrefused 7 at 1\n"));
}

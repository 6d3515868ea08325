//! What `reference_short` prints: kinds outside their bands, their counts, and the last line of `reference_book`.

use reference::book::Book;
use reference::line::second_line;
use reference::maker::example::{short_example, OWNER, SHORT_FROM, SHORT_TO};
use reference::maker::{book_bytes, Second};
use reference::program::{output_of, run_from};
use reference::record::Record;
use reference::sheet::Sheet;
use reference::short::Short;
use std::path::Path;

fn printed(owner: u8, seconds: &[Second]) -> Vec<String> {
    let text = output_of(&book_bytes(owner, seconds), Short::default());
    text.lines().map(str::to_string).collect()
}

/// FCR at setpoint 0 in a band of -20 to 20, and nothing else.
fn fcr(measured: i32) -> Record {
    Record {
        measured,
        fcr_held: 400,
        status: 1,
        ..nothing()
    }
}

/// aFRR at setpoint 0 in a band of -50 to 50, and nothing else.
fn afrr(measured: i32) -> Record {
    Record {
        measured,
        afrr_held_up: 1_000,
        status: 2,
        ..nothing()
    }
}

fn nothing() -> Record {
    Record::default()
}

#[test]
fn both_ends_of_a_band_are_inside() {
    let seconds: Vec<Second> = [-20, 20, 0].iter().map(|&kw| [fcr(kw), nothing(), nothing()]).collect();
    let lines = printed(0, &seconds);
    assert_eq!(lines.len(), 10, "no line of a second: {:?}", lines);
    assert_eq!(lines[0], "U FCR below 0 0 above 0 0");
}

#[test]
fn one_kw_outside_either_end() {
    let seconds: Vec<Second> = [-21, 21, 27].iter().map(|&kw| [fcr(kw), nothing(), nothing()]).collect();
    assert_eq!(
        printed(0, &seconds),
        [
            "0 U FCR below 1",
            "1 U FCR above 1",
            "2 U FCR above 7",
            "U FCR below 1 1 above 2 8",
            "U aFRR below 0 0 above 0 0",
            "U mFRR below 0 0 above 0 0",
            "A FCR below 0 0 above 0 0",
            "A aFRR below 0 0 above 0 0",
            "A mFRR below 0 0 above 0 0",
            "B FCR below 0 0 above 0 0",
            "B aFRR below 0 0 above 0 0",
            "B mFRR below 0 0 above 0 0",
            "sum A 0 B 0 open 27 due 27",
        ]
    );
}

/// U's FCR is below, A's aFRR above, B's mFRR (10 kW due in 0 to 10,800) below; each in its own line and count.
#[test]
fn kinds_of_all_three_plants() {
    let called = Record {
        mfrr_target: 9_000,
        delivery_end: 900,
        call: 1,
        status: 4,
        ..nothing()
    };
    let ramping = Record {
        measured: -5,
        status: 4,
        ..nothing()
    };
    // owner 1: U's FCR goes to B, where it counts on top of B's own power
    let seconds = [[fcr(0), afrr(0), called], [fcr(-25), afrr(60), ramping]];
    let lines = printed(1, &seconds);
    assert_eq!(lines[0..3], ["1 U FCR below 5", "1 A aFRR above 10", "1 B mFRR below 30"]);
    assert_eq!(lines[3], "U FCR below 1 5 above 0 0");
    assert_eq!(lines[7], "A aFRR below 0 0 above 1 10");
    assert_eq!(lines[11], "B mFRR below 1 30 above 0 0");
    assert_eq!(lines.len(), 13);
}

/// Two kinds of one plant are outside together: bands of ±20 and ±50, error 140.
#[test]
fn kinds_of_one_plant_in_their_order() {
    let unit = Record {
        measured: 140,
        fcr_held: 400,
        afrr_held_up: 1_000,
        status: 3,
        ..nothing()
    };
    let lines = printed(0, &[[unit, nothing(), nothing()]]);
    assert_eq!(lines[0..4], ["0 U FCR above 20", "0 U aFRR above 50", "U FCR below 0 0 above 1 20", "U aFRR below 0 0 above 1 50"]);
}

/// The seconds before a refused one count, the refused one does not.
#[test]
fn a_refusal_in_the_middle() {
    let refused = Record {
        fcr_held: -1,
        ..fcr(1_000)
    };
    let records = [fcr(30), fcr(31), refused, fcr(32)];
    let lines = printed(0, &records.map(|unit| [unit, nothing(), nothing()]));
    assert_eq!(lines[0..3], ["0 U FCR above 10", "1 U FCR above 11", "U FCR below 0 0 above 2 21"]);
    assert_eq!(lines[11], "refused 2 at 2");
    assert_eq!(lines.len(), 12);
}

#[test]
fn a_refused_header_has_nine_lines_of_zeros() {
    let text = output_of(&[], Short::default());
    let lines: Vec<&str> = text.lines().collect();
    assert_eq!(lines.len(), 10);
    assert!(lines[..9].iter().all(|line| line.ends_with(" below 0 0 above 0 0")));
    assert_eq!(lines[9], "refused 12 at 0");
}

/// The shipped book is what `generator short-example` writes. In it U's aFRR is below its band for a minute, and
/// nothing else is outside.
#[test]
fn the_shipped_book() {
    let path = Path::new(env!("CARGO_MANIFEST_DIR")).join("books/short_example.book");
    let book = std::fs::read(path).expect("the shipped book");
    assert_eq!(book, book_bytes(OWNER, &short_example()), "generator short-example > books/short_example.book");

    let text = output_of(&book, Short::default());
    let lines: Vec<&str> = text.lines().collect();
    let minute = SHORT_FROM..=SHORT_TO;
    let seconds = minute.clone().count();
    assert_eq!(lines.len(), seconds + 10);
    for (line, second) in lines.iter().zip(minute) {
        assert!(line.starts_with(&format!("{} U aFRR below ", second)), "{}", line);
    }
    let counts = &lines[seconds..seconds + 9];
    assert_eq!(counts[1], "U aFRR below 60 50059 above 0 0");
    assert_eq!(counts.iter().filter(|line| line.ends_with(" below 0 0 above 0 0")).count(), 8);
    assert_eq!(lines.last(), output_of(&book, second_line).lines().last().as_ref());
    assert!(lines.last().is_some_and(|line| line.starts_with("sum A ")));
}

/// Under the sheet with 5,000 kW the bands close faster behind the setpoint, and the same minute is further below them, as it
/// was in document 01.
#[test]
fn the_shipped_book_under_5_000_kw() {
    let book = book_bytes(OWNER, &short_example());
    let open = Book::open(Sheet { least_range: 5_000, ..Sheet::default() }).expect("a sound sheet");
    let mut output = Vec::new();
    run_from(open, &mut &book[..], &mut output, Short::default()).expect("memory does not fail");
    let text = String::from_utf8(output).expect("lines are text");
    let counts: Vec<&str> = text.lines().rev().skip(1).take(9).collect();
    assert_eq!(counts[7], "U aFRR below 60 50737 above 0 0");
    assert_eq!(counts.iter().filter(|line| line.ends_with(" below 0 0 above 0 0")).count(), 8);
}

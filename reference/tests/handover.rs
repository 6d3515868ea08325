//! Document 02, W7: a closing book's state opens the next one, or 29; and what `reference_cut` prints.

mod full_case;

use full_case::full_case;
use reference::book::{Book, Sums};
use reference::cut::{moved_back, output_of, COUNT};
use reference::line::row_lines;
use reference::maker::cut_contents::{contents, counted};
use reference::maker::families::{self, WHOLE};
use reference::maker::{book_bytes, cuts, second_bytes, Second};
use reference::plant::{Plant, Row, FAULT, MOST_SECONDS};
use reference::program;
use reference::record::Record;
use std::collections::BTreeSet;

fn blank() -> Second {
    [Record::default(); 3]
}

/// A book after these seconds, and their rows.
fn run(mut book: Book, owner: u8, seconds: &[Vec<u8>]) -> (Book, Vec<[Row; 3]>) {
    let rows = seconds.iter().map(|bytes| book.second(owner, bytes).expect("an accepted second")).collect();
    (book, rows)
}

fn after_blank(seconds: usize) -> Book {
    run(Book::default(), 0, &vec![second_bytes(&blank()).to_vec(); seconds]).0
}

/// The row of a plant's next second, on its own.
fn next(plant: &mut Plant, record: Record) -> Result<Row, u8> {
    let accepted = plant.consider(&record.write())?;
    Ok(plant.second(accepted, record.measured as i64, record.working_point as i64))
}

/// The owner and the accepted seconds of a book.
fn accepted(mut book: &[u8]) -> (u8, Vec<Vec<u8>>) {
    let (mut open, mut owner, mut seconds) = (Book::default(), 0, Vec::new());
    let _ = program::for_each_second(&mut book, |by, bytes| {
        open.second(by, bytes)?;
        owner = by;
        seconds.push(bytes.to_vec());
        Ok(())
    });
    (owner, seconds)
}

fn added(one: Sums, other: Sums) -> Sums {
    Sums {
        a: one.a + other.a,
        b: one.b + other.b,
        open: one.open + other.open,
        due: one.due + other.due,
    }
}

/// "The two books' rows, with call times moved likewise, are those of the one book, and their sums add up to its sums": at every
/// multiple of 900 of books of all kinds.
#[test]
fn both_books_are_the_one_book() {
    let mut books: Vec<Vec<u8>> = (1..=16).map(|seed| cuts::make(seed).bytes.split_off(COUNT)).collect();
    for (seed, family) in WHOLE.iter().enumerate() {
        books.push(families::make(seed as u64 + 1, Some(family)).expect("a family").bytes);
    }
    let mut cuts = 0;
    for book in books {
        let (owner, seconds) = accepted(&book);
        let (whole, rows) = run(Book::default(), owner, &seconds);
        for cut in (0..=seconds.len()).step_by(900) {
            let (first, mut both) = run(Book::default(), owner, &seconds[..cut]);
            let rest: Vec<_> = seconds[cut..].iter().map(|bytes| moved_back(bytes, cut as u32)).collect();
            let (second, more) = run(first.hand_over().expect("a multiple of 900"), owner, &rest);
            both.extend(more);
            assert!(both == rows, "cut at {}", cut);
            assert_eq!(added(first.sums, second.sums), whole.sums);
            assert_eq!(second.seconds(), seconds.len() - cut);
            cuts += 1;
        }
    }
    assert!(cuts > 60, "{}", cuts);
}

/// Handed over again at every quarter hour, and each time twice: still the rows of the one book.
#[test]
fn at_every_quarter_hour() {
    let (owner, seconds) = accepted(&cuts::make(1).bytes[COUNT..]);
    let (whole, rows) = run(Book::default(), owner, &seconds);
    let (mut book, mut all, mut sums) = (Book::default(), Vec::new(), Sums::default());
    for (number, quarter) in seconds.chunks(900).enumerate() {
        book = book.hand_over().and_then(|book| book.hand_over()).expect("a multiple of 900");
        assert_eq!((book.seconds(), book.sums), (0, Sums::default()));
        let moved: Vec<_> = quarter.iter().map(|bytes| moved_back(bytes, number as u32 * 900)).collect();
        let (closed, more) = run(book, owner, &moved);
        all.extend(more);
        sums = added(sums, closed.sums);
        book = closed;
    }
    assert!(all == rows);
    assert_eq!(sums, whole.sums);
}

/// Number and plant of what refuses these bytes as the book's next second, if anything does.
fn refusal(book: &Book, bytes: &[u8]) -> Option<(u8, usize)> {
    let plants = [&book.unit, &book.a, &book.b];
    let judged = plants.iter().zip(bytes.chunks(36)).map(|(plant, bytes)| plant.consider(bytes).err());
    judged.enumerate().find_map(|(plant, number)| number.map(|number| (number, plant)))
}

/// A second refused in the one book is refused in the handed-over one, with the same number in the same plant: accepted seconds
/// after the cut with a bit turned in each byte in turn.
#[test]
fn refusals_are_those_of_the_one_book() {
    let (owner, seconds) = accepted(&cuts::make(2).bytes[COUNT..]);
    let cut = 3_600;
    let (mut whole, _) = run(Book::default(), owner, &seconds[..cut]);
    let mut handed = whole.hand_over().expect("a multiple of 900");
    let mut seen = BTreeSet::new();
    for (now, bytes) in seconds[cut..].iter().enumerate().take(900) {
        for place in 0..108 {
            let mut wrong = bytes.clone();
            wrong[place] ^= [0x80, 1, 0x10, 4][(now + place / 4) % 4];
            let number = refusal(&whole, &wrong);
            assert_eq!(number, refusal(&handed, &moved_back(&wrong, cut as u32)), "byte {} of second {}", place, now);
            seen.extend(number.map(|(number, _)| number));
        }
        whole.second(owner, bytes).expect("an accepted second");
        handed.second(owner, &moved_back(bytes, cut as u32)).expect("an accepted second");
    }
    assert!(seen.is_superset(&[2, 3, 4, 5, 6, 7, 8, 9, 26].into()), "{:?}", seen);
}

/// "29 when the closing book's length isn't a multiple of 900, and no state is handed over"; 0 is a multiple.
#[test]
fn number_29() {
    let mut book = Book::default();
    for length in 0..=1_801 {
        let before = book.clone();
        let seconds = book.hand_over().map(|next| next.seconds());
        let wanted = if [0, 900, 1_800].contains(&length) { Ok(0) } else { Err(29) };
        assert_eq!(seconds, wanted, "{} seconds", length);
        assert_eq!(book, before, "the closing book stays as it was");
        book.second(0, &second_bytes(&blank())).expect("a blank second");
    }
    assert_eq!(after_blank(899).hand_over(), Err(29));
}

/// A refused second isn't counted.
#[test]
fn the_length_is_the_seconds_accepted() {
    let mut book = after_blank(900);
    assert!(book.second(0, &[0xff; 108]).is_err());
    assert!(book.hand_over().is_ok());
    let mut book = after_blank(899);
    assert!(book.second(0, &[0xff; 108]).is_err());
    assert_eq!(book.hand_over(), Err(29));
}

#[test]
fn a_book_that_never_ran_hands_over_a_blank_one() {
    assert_eq!(Book::default().hand_over(), Ok(Book::default()));
}

/// A handed-over book's own length is what counts: one of 900 seconds and then one more.
#[test]
fn number_29_of_a_handed_over_book() {
    let mut book = after_blank(900).hand_over().expect("a multiple of 900");
    book.second(0, &second_bytes(&blank())).expect("a blank second");
    assert_eq!(book.hand_over(), Err(29));
}

/// 26 goes by the new book's seconds, and the last status is handed over, though its first second is free.
#[test]
fn status_by_its_own_seconds() {
    let with_status = |status: u8| Record {
        status,
        ..Record::default()
    };
    let mut plant = Plant::default();
    for _ in 0..900 {
        next(&mut plant, with_status(5)).expect("a status that stays");
    }
    let opened = plant.handed_over();
    assert_eq!((opened.seconds(), opened.status), (0, 5));
    for status in 0..16 {
        let mut plant = opened.clone();
        assert!(next(&mut plant, with_status(status)).is_ok(), "second 0 is a multiple of 900");
    }
    let mut plant = opened;
    for now in 0..=1_801 {
        let wanted = if now % 900 == 0 { None } else { Some(26) };
        assert_eq!(next(&mut plant.clone(), with_status(7)).err(), wanted, "on at {}", now);
        assert_eq!(next(&mut plant.clone(), with_status(4)).err(), wanted, "off at {}", now);
        assert_eq!(next(&mut plant.clone(), with_status(4 | FAULT)).err(), None);
        next(&mut plant, with_status(5)).expect("a status that stays");
    }
}

/// 9 goes by the new book's seconds: ends from t + 900 to t + 3,600.
#[test]
fn ends_by_its_own_seconds() {
    let mut plant = Plant::default();
    let called = |end: u32| Record {
        status: 4,
        mfrr_target: 100,
        delivery_end: end,
        call: 1,
        ..Record::default()
    };
    let on = Record {
        status: 4,
        ..Record::default()
    };
    for _ in 0..1_800 {
        next(&mut plant, on).expect("mFRR on");
    }
    let mut plant = plant.handed_over();
    for now in 0..=901u32 {
        for end in (0..=6_300).step_by(900).chain([899, 901, 1_799, u32::MAX, 4_294_966_500]) {
            let sound = end % 900 == 0 && end >= now + 900 && end <= now + 3_600;
            let wanted = if sound { None } else { Some(9) };
            assert_eq!(plant.consider(&called(end).write()).err(), wanted, "end {} at {}", end, now);
        }
        next(&mut plant, on).expect("mFRR on");
    }
}

/// 1 goes by the new book's seconds: 90,000 of its own.
#[test]
fn seconds_by_its_own_count() {
    let mut plant = Plant::default();
    for _ in 0..900 {
        next(&mut plant, Record::default()).expect("a blank second");
    }
    let mut plant = plant.handed_over();
    for _ in 0..MOST_SECONDS {
        next(&mut plant, Record::default()).expect("a blank second");
    }
    assert_eq!(next(&mut plant, Record::default()).err(), Some(1));
    assert_eq!(next(&mut plant.handed_over(), Record::default()).err(), None);
}

/// The call of document 01's values to hold, cut at 900: the other half of them, 900 seconds earlier.
#[test]
fn a_running_call() {
    let mut plant = Plant::default();
    for now in 0..900 {
        let call = now == 0;
        let record = Record {
            status: 4,
            call: call as u8,
            mfrr_target: if call { 9_000 } else { 0 },
            delivery_end: if call { 900 } else { 0 },
            ..Record::default()
        };
        next(&mut plant, record).expect("mFRR on");
    }
    let mut plant = plant.handed_over();
    for now in 0..=1_000 {
        let record = Record {
            status: 4,
            ..Record::default()
        };
        let mfrr = next(&mut plant, record).expect("mFRR on").kinds[2];
        let wanted = match now {
            0 => (9_000, 0, 10_800),
            1..=900 => (9_000 - 10 * now, 0, 10_800),
            _ => (0, 0, 0),
        };
        assert_eq!((mfrr.setpoint, mfrr.band.low, mfrr.band.high), wanted, "second {}", now);
    }
}

/// "A book that starts blank gives odd bands for five minutes": FCR's and aFRR's bands go on.
#[test]
fn bands_go_on() {
    let record = |fcr: bool| Record {
        fcr_held: 400,
        deviation: if fcr { 50 } else { 0 },
        afrr_held_up: 10_000,
        afrr_setpoint: 10_000,
        status: 3,
        ..Record::default()
    };
    let mut plant = Plant::default();
    for now in 0..900 {
        next(&mut plant, record(now >= 890)).expect("an accepted second"); // FCR falls from 0 to -100 at 890
    }
    let mut handed = plant.handed_over();
    let mut blank = Plant::default();
    for now in 0..=300 {
        let [fcr, afrr, _] = next(&mut handed, record(true)).expect("an accepted second").kinds;
        let age = now + 10;
        let tolerance = if age <= 15 { 100 } else { (100 * (30 - age) / 30).max(20) };
        assert_eq!((fcr.setpoint, fcr.band.high), (-100, -100 + tolerance), "second {}", now);
        assert_eq!(afrr.band.low, 9_500, "second {}", now);
        let [_, afrr, _] = next(&mut blank, record(true)).expect("an accepted second").kinds;
        assert!(afrr.band.low < 9_500 || now >= 286, "blank, second {}", now);
    }
}

/// What stands before a book in the input of `reference_cut`.
fn cut_at(cut: u32, book: &[u8]) -> String {
    output_of(&[&cut.to_le_bytes(), book].concat())
}

const FULL_CASE: &str = "U -100 -120 0 21 -79 0 -50 50 10 10 0 0 0 0 0 0\n\
    N A -100 -120 0 21 -79 0 0 0 0 0 0 0 0 0 0 0\n\
    N B 0 0 0 0 0 0 -50 50 30 30 0 0 0 0 0 0\n";

/// The rows of the full case at a second.
fn full_rows(second: usize) -> String {
    format!("N {}", FULL_CASE).replace('N', &second.to_string())
}

const FULL_SUM: &str = "sum A -79 B 30 open 0 due -49\n";
const NO_SUM: &str = "sum A 0 B 0 open 0 due 0\n";

#[test]
fn cut_at_0() {
    let book = book_bytes(2, &[full_case()]);
    assert_eq!(cut_at(0, &book), [NO_SUM, &full_rows(0), FULL_SUM].concat());
    let mut wrong = full_case();
    wrong[0].status = 16;
    assert_eq!(cut_at(0, &book_bytes(2, &[wrong])), [NO_SUM, "refused 6 at 0\n"].concat());
}

/// "Where the book has no second C, it is printed whole", with the last line that it has then.
#[test]
fn no_such_second() {
    let mut book = book_bytes(2, &[full_case()]);
    let whole = [&full_rows(0), FULL_SUM].concat();
    for cut in [1, 2, 899, 900, 90_000, 65_536, 1 << 24, u32::MAX] {
        assert_eq!(cut_at(cut, &book), whole);
    }
    book.push(0);
    assert_eq!(cut_at(1, &book), [&full_rows(0), "refused 21 at 1\n"].concat());
    let of_900 = book_bytes(0, &[blank(); 900]);
    assert_eq!(cut_at(900, &of_900), program::output_of(&of_900, row_lines));
}

#[test]
fn refused_29() {
    let mut seconds = vec![full_case(), full_case(), full_case()];
    let book = book_bytes(2, &seconds);
    assert_eq!(cut_at(1, &book), [&full_rows(0), FULL_SUM, "refused 29 at 1\n"].concat());
    seconds[1][2].status = 255;
    assert_eq!(cut_at(1, &book_bytes(2, &seconds)), [&full_rows(0), FULL_SUM, "refused 29 at 1\n"].concat(), "29 comes first");
    assert_eq!(cut_at(2, &book_bytes(2, &seconds)), [&full_rows(0), "refused 6 at 1\n"].concat(), "before the cut");
}

/// The block that has second C is read before that second is judged, so before the book is handed over.
#[test]
fn a_refused_block_at_the_cut() {
    let seconds = [blank(); 910];
    let sound = book_bytes(0, &seconds);
    let rows = program::output_of(&sound, row_lines);
    let first: String = rows.split_inclusive('\n').take(2_700).collect();
    let block = 512 * (1 + 900 / 4);
    let mut wrong = sound.clone();
    wrong[block + 20] ^= 1;
    assert_eq!(cut_at(900, &wrong), [&first, "refused 13 at 900\n"].concat());
    assert_eq!(cut_at(900, &sound[..block]), [&first, "refused 12 at 900\n"].concat());
    let mut wrong = sound.clone();
    wrong[block + 512 + 20] ^= 1;
    let four: String = rows.split_inclusive('\n').take(12).collect();
    assert_eq!(cut_at(900, &wrong), [&first, NO_SUM, &four, "refused 13 at 4\n"].concat());
    assert_eq!(cut_at(900, &[&sound[..], b"R"].concat()).lines().last(), Some("refused 21 at 10"));
}

#[test]
fn short_counts_and_headers() {
    let book = book_bytes(2, &[full_case()]);
    let input = [&[0, 0, 0, 0], &book[..]].concat();
    for length in 0..4 + 512 {
        assert_eq!(output_of(&input[..length]), "refused 12 at 0\n");
    }
    let mut wrong = book.clone();
    wrong[508] ^= 1;
    assert_eq!(cut_at(0, &wrong), "refused 13 at 0\n");
}

/// Only the ends of calls move; one before the cut stands far above what 9 takes.
#[test]
fn ends_of_calls_move() {
    let record = |call: u8, end: u32| Record {
        measured: -7,
        mfrr_target: -1,
        delivery_end: end,
        deviation: -3,
        status: 0xa5,
        call,
        ..Record::default()
    };
    let second = [record(1, 2_700), record(0, 900), record(2, 900)];
    let moved = [record(1, 1_800), record(0, 900), record(2, 900)];
    assert_eq!(moved_back(&second_bytes(&second), 900), second_bytes(&moved));
    let second = [record(1, 0), record(1, 900), record(1, 899)];
    let moved = [record(1, u32::MAX - 899), record(1, 0), record(1, u32::MAX)];
    assert_eq!(moved_back(&second_bytes(&second), 900), second_bytes(&moved));
}

/// The sum line of these rows of `reference_rows`.
fn summed(rows: &[&str]) -> String {
    let (mut a, mut b, mut open) = (0, 0, 0);
    for row in rows {
        let fields: Vec<&str> = row.split_whitespace().collect();
        let number = |at: usize| fields[at].parse::<i64>().expect("a number");
        let actuals = number(6) + number(11) + number(16);
        match fields[1] {
            "A" => a += actuals,
            "B" => b += actuals,
            _ => {}
        }
        open += number(17);
    }
    format!("sum A {} B {} open {} due {}\n", a, b, open, a + b + open)
}

/// What `reference_cut` prints, from what `reference_rows` prints of the whole book.
fn expected(input: &[u8]) -> String {
    let Some((count, book)) = input.split_first_chunk::<COUNT>() else {
        return "refused 12 at 0\n".to_string();
    };
    let cut = u32::from_le_bytes(*count) as usize;
    let text = program::output_of(book, row_lines);
    let mut rows: Vec<&str> = text.split_inclusive('\n').collect();
    let last = rows.pop().expect("a last line");
    let seconds = rows.len() / 3;
    let words: Vec<&str> = last.split_whitespace().collect();
    let refused = (words[0] == "refused").then(|| words[1].parse::<u8>().expect("a number"));
    let judged = seconds + matches!(refused, Some(2..=11 | 24..=26)) as usize;
    if judged <= cut {
        return text;
    }
    let (first, rest) = rows.split_at(3 * cut);
    let mut wanted = first.concat() + &summed(first);
    if cut % 900 != 0 {
        return wanted + &format!("refused 29 at {}\n", cut);
    }
    for row in rest {
        let (second, figures) = row.split_once(' ').expect("fields");
        wanted += &format!("{} {}", second.parse::<usize>().expect("a second") - cut, figures);
    }
    wanted
        + &match refused {
            None => summed(rest),
            Some(number) => format!("refused {} at {}\n", number, seconds - cut),
        }
}

/// Every input of the comparison.
#[test]
fn printed_from_the_one_books_rows() {
    for seed in 1..=80 {
        let input = cuts::make(seed);
        assert!(output_of(&input.bytes) == expected(&input.bytes), "seed {}: {}", seed, input.name);
    }
}

/// The same inputs with other cuts.
#[test]
fn cut_elsewhere() {
    let others = [(3, [0, 1, 450, 1_800]), (9, [0, 900, 2_700, 1_799]), (44, [900, 0, 88, 91]), (60, [900, 1_800, 1_801, 1_803])];
    for (seed, cuts) in others {
        let book = cuts::make(seed).bytes.split_off(COUNT);
        for cut in cuts {
            let input = [&u32::to_le_bytes(cut), &book[..]].concat();
            assert!(output_of(&input) == expected(&input), "seed {} cut at {}", seed, cut);
        }
    }
}

/// The inputs by default have everything that `compare_cut` asks for; others of the same length too.
#[test]
fn the_inputs_have_everything() {
    for first in [1, 81, 1_007] {
        for (name, least, count) in counted((first..first + 80).map(|seed| cuts::make(seed).bytes)) {
            assert!(count >= least, "seeds from {}: {} of {}: {}", first, count, least, name);
        }
    }
    assert_eq!(contents(&[0, 0, 0]), ["nothing read"]);
}

//! Books under sheets, by seed (document 02, W9): 16 bytes of figures, then the book.

use super::families::{make, make_under};
use super::random::Random;
use crate::block::LENGTH;
use crate::sheet::{self, Sheet, RANGES, SPARE};

/// What a program that takes a sheet reads.
pub struct Input {
    pub name: String,
    pub bytes: Vec<u8>,
}

/// Which end of a range.
#[derive(Clone, Copy, Debug, PartialEq)]
pub enum Side {
    Below,
    Above,
}

/// What is special about an input. Those up to `Inside` have a sheet that opens a book, and the book is wholly accepted, but for
/// some storms.
#[derive(Clone, Copy, Debug, PartialEq)]
enum Case {
    Default,
    /// The default sheet but for document 01's 5,000 kW.
    DocumentOne,
    /// One figure at an end of its range, the others as by default; a book in which it shows.
    End(usize, Side),
    /// The same with a book of every kind.
    EndOfAll(usize, Side),
    AllAt(Side),
    /// Each figure at one of its ends.
    Ends,
    /// Each figure anywhere.
    Inside,
    /// A book that is refused.
    Refused(usize),
    /// One figure beside its range, the others as by default.
    Beside(usize, Side),
    /// One figure far outside its range, the others anywhere.
    Outside(usize, Side),
    SeveralOutside,
    /// A figure outside and a book that is refused too.
    OutsideAndRefused,
    /// So many bytes.
    Short(usize),
    /// Fewer than 16 bytes, with a figure outside and a spare byte that isn't 0.
    ShortAndWrong,
    /// The sheet, and no book or a part of its header.
    NoBook,
    Spare(usize),
    SpareAndOutside,
}

/// The ends of all ranges.
fn ends() -> impl Iterator<Item = (usize, Side)> {
    (0..RANGES.len()).flat_map(|figure| [(figure, Side::Below), (figure, Side::Above)])
}

/// The ends that 16 bytes can pass: a percentage is a byte without a sign, and there is none below 0.
pub fn passable_ends() -> impl Iterator<Item = (usize, Side)> {
    ends().filter(|&(figure, side)| side == Side::Above || RANGES[figure].1 > 0)
}

/// Every case, in turn.
fn cases() -> Vec<Case> {
    let mut cases = vec![Case::Default, Case::DocumentOne, Case::Default, Case::DocumentOne];
    cases.extend(ends().map(|(figure, side)| Case::End(figure, side)));
    cases.extend(ends().map(|(figure, side)| Case::EndOfAll(figure, side)));
    cases.extend([Case::AllAt(Side::Below), Case::AllAt(Side::Above)].repeat(3));
    cases.extend([Case::Ends].repeat(14));
    cases.extend([Case::Inside].repeat(36));
    cases.extend((0..8).map(Case::Refused));
    cases.extend(passable_ends().map(|(figure, side)| Case::Beside(figure, side)));
    cases.extend(passable_ends().map(|(figure, side)| Case::Outside(figure, side)));
    cases.extend([Case::SeveralOutside, Case::OutsideAndRefused].repeat(3));
    cases.extend((0..sheet::LENGTH).map(Case::Short));
    cases.extend([Case::ShortAndWrong, Case::NoBook, Case::SpareAndOutside].repeat(2));
    cases.extend((0..SPARE.len()).map(Case::Spare));
    cases
}

/// How many seeds in a row make every case.
pub fn seeds_for_all() -> u64 {
    cases().len() as u64
}

fn at(figure: usize, side: Side) -> i64 {
    match side {
        Side::Below => RANGES[figure].1,
        Side::Above => RANGES[figure].2,
    }
}

/// A figure inside its range: anywhere, or for kW also among the smaller ones.
fn inside(figure: usize, random: &mut Random) -> i64 {
    let (_, lowest, highest) = RANGES[figure];
    if highest == 100_000 {
        let most = random.pick(&[20, 1_000, 10_000, highest]);
        return random.within(lowest, most);
    }
    random.within(lowest, highest)
}

fn anywhere(random: &mut Random) -> Sheet {
    Sheet::of(std::array::from_fn(|figure| inside(figure, random)))
}

/// A sheet with one figure changed.
pub fn with(sheet: &Sheet, figure: usize, value: i64) -> Sheet {
    let mut figures = sheet.figures();
    figures[figure] = value;
    Sheet::of(figures)
}

/// A figure outside its range that its bytes can hold: far from it, or like one inside in some of its bytes.
fn outside(figure: usize, side: Side, random: &mut Random) -> i64 {
    let (_, lowest, highest) = RANGES[figure];
    match (side, highest) {
        (Side::Below, 100_000) => random.pick(&[-1, -1_000, -100_000, i32::MIN as i64, i32::MIN as i64 + 1_000]),
        (Side::Above, 100_000) => random.pick(&[131_072 + 1_000, (1 << 24) + 1_000, 1_000_000, i32::MAX as i64]),
        (Side::Below, _) => random.within(0, lowest - 1),
        (Side::Above, _) => {
            let any = random.within(highest + 1, 255);
            random.pick(&[255, 128, any])
        }
    }
}

fn beside(figure: usize, side: Side) -> i64 {
    match side {
        Side::Below => at(figure, side) - 1,
        Side::Above => at(figure, side) + 1,
    }
}

/// A family in whose books a figure shows.
fn family(figure: usize, random: &mut Random) -> &'static str {
    match figure {
        0 | 4 => "edge-fcr",
        1 | 3 | 5 => "edge-afrr",
        _ => random.pick(&["edge-calls", "storm"]),
    }
}

/// Mostly books of every kind, the long ones seldom.
const FAMILIES: [&str; 18] = [
    "sheet",
    "edge-afrr",
    "sheet",
    "edge-fcr",
    "sheet",
    "wild",
    "sheet",
    "storm",
    "sheet",
    "edge-ranges",
    "sheet",
    "calm",
    "sheet",
    "edge-shares",
    "sheet",
    "edge-switches",
    "edge-afrr",
    "edge-fcr",
];

/// A short book that every sound sheet takes.
fn short_book(seed: u64) -> Vec<u8> {
    make(2 * seed + 1, Some("edge-fcr")).expect("a family").bytes
}

/// A book that is refused: in its header, in a block, at its end, or as the broken ones of the families.
fn refused_book(way: usize, sheet: &Sheet, random: &mut Random) -> Vec<u8> {
    let seed = random.within(0, 100_000) as u64;
    let mut book = make_under(sheet, 2 * seed + 1, Some("edge-fcr")).expect("a family").bytes;
    let block = LENGTH * random.within(1, book.len() as i64 / LENGTH as i64 - 1) as usize;
    match way {
        0 => book[random.index(LENGTH)] ^= 1 << random.index(8),
        1 => book[block + random.index(LENGTH)] ^= 1 << random.index(8),
        2 => book.truncate(block + random.index(LENGTH)),
        3 => book.push(random.within(0, 255) as u8),
        4 => {
            // a held power below 0 in a second, under a check that holds
            let plant = random.index(3);
            let bytes = &mut book[block..block + LENGTH];
            bytes[crate::block::FIRST + 36 * plant + 11] = 0x80;
            crate::block::seal(bytes);
        }
        _ => return make_under(sheet, seed, Some("broken")).expect("a family").bytes,
    }
    book
}

/// The sheet of a case, its book, and what the book is; `turn` is the case's place among all.
fn sheet_and_book(case: Case, turn: u64, seed: u64, random: &mut Random) -> (Sheet, Vec<u8>, String) {
    let default = Sheet::default();
    let (sheet, family) = match case {
        Case::Default => (default, if turn % 4 == 0 { "edge-afrr" } else { "sheet" }),
        Case::DocumentOne => (with(&default, 3, 5_000), if turn % 4 == 1 { "edge-afrr" } else { "sheet" }),
        Case::End(figure, side) => (with(&default, figure, at(figure, side)), family(figure, random)),
        Case::EndOfAll(figure, side) => (with(&default, figure, at(figure, side)), "sheet"),
        Case::AllAt(side) => (Sheet::of(std::array::from_fn(|figure| at(figure, side))), "sheet"),
        Case::Ends => {
            let ends = std::array::from_fn(|figure| at(figure, random.pick(&[Side::Below, Side::Above])));
            (Sheet::of(ends), FAMILIES[turn as usize % FAMILIES.len()])
        }
        Case::Inside => (anywhere(random), FAMILIES[turn as usize % FAMILIES.len()]),
        Case::Refused(way) => {
            let sheet = anywhere(random);
            return (sheet, refused_book(way, &sheet, random), "refused".to_string());
        }
        Case::Beside(figure, side) => return (with(&default, figure, beside(figure, side)), short_book(seed), "short".to_string()),
        Case::Outside(figure, side) => {
            let sheet = with(&anywhere(random), figure, outside(figure, side, random));
            return (sheet, short_book(seed), "short".to_string());
        }
        Case::SeveralOutside | Case::ShortAndWrong | Case::SpareAndOutside => {
            let sides: Vec<_> = passable_ends().collect();
            let mut sheet = anywhere(random);
            for _ in 0..if case == Case::SeveralOutside { 4 } else { 2 } {
                let (figure, side) = random.pick(&sides);
                sheet = with(&sheet, figure, outside(figure, side, random));
            }
            sheet = with(&sheet, 0, outside(0, Side::Above, random));
            return (sheet, short_book(seed), "short".to_string());
        }
        Case::OutsideAndRefused => {
            let way = turn as usize / 2 % 3;
            let book = refused_book(way, &default, random);
            return (with(&default, turn as usize % 3, 51), book, format!("refused, way {}", way));
        }
        Case::Short(_) | Case::NoBook | Case::Spare(_) => return (anywhere(random), short_book(seed), "short".to_string()),
    };
    let made = make_under(&sheet, seed, Some(family)).expect("a family");
    (sheet, made.bytes, made.name)
}

/// The input of a seed.
pub fn make_input(seed: u64) -> Input {
    let cases = cases();
    let turn = seed % cases.len() as u64;
    let case = cases[turn as usize];
    let mut random = Random::new(seed);
    let random = &mut random;
    let (sheet, book, family) = sheet_and_book(case, turn, seed, random);
    let mut bytes = sheet.write().to_vec();
    match case {
        Case::Spare(number) => bytes[SPARE[number]] = random.pick(&[1, 0x80, 0xff]),
        Case::SpareAndOutside | Case::ShortAndWrong => bytes[SPARE[random.index(3)]] = 1,
        _ => {}
    }
    bytes.extend(book);
    match case {
        Case::Short(length) => bytes.truncate(length),
        Case::ShortAndWrong => bytes.truncate(random.within(8, 15) as usize),
        Case::NoBook => bytes.truncate(sheet::LENGTH + random.pick(&[0, 0, 1, LENGTH - 1])),
        _ => {}
    }
    Input {
        name: format!("{:?}, {:?}: {}", case, sheet.figures(), family),
        bytes,
    }
}

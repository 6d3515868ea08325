//! What is among inputs that have a sheet before a book, by their bytes and not by what their maker meant to write.

use super::sheets::{passable_ends, with, Side};
use crate::block::{self, read_header};
use crate::book::Book;
use crate::fcr;
use crate::line::{row_lines, NAMES};
use crate::mfrr::{self, Phase};
use crate::plant::{Plant, Row, FAULT, KINDS};
use crate::power::{Band, Limits};
use crate::program::{for_each_second, output_of, Stop};
use crate::record::{self, Record};
use crate::sheet::{self, Sheet, RANGES, SPARE};
use std::collections::BTreeSet;

/// Limits that document 01's grains can't carry: of FCR, aFRR and mFRR.
const FINER: [&str; 3] = [
    "an FCR limit that isn't a whole number of 540ths",
    "an aFRR limit that isn't a whole number of 540ths",
    "an mFRR limit that isn't a whole number of 540ths",
];

/// What a comparison must have seen, and in how many inputs.
const WANTED: [(&str, usize); 29] = [
    ("the default sheet", 2),
    ("the default sheet but for 5,000 kW", 2),
    ("every figure at its lowest", 3),
    ("every figure at its highest", 3),
    ("every figure at an end of its range", 12),
    (FINER[0], 20),
    (FINER[1], 30),
    (FINER[2], 10),
    ("a call that ramps up", 40),
    ("a call that delivers", 10),
    ("a call that ramps down", 6),
    ("a call that rests again", 3),
    ("a leftover that widens the band", 20),
    ("three leftovers at once", 3),
    ("a kind on or off at a quarter hour", 10),
    ("a kind off at a fault", 10),
    ("no kind on", 3),
    ("1,500 seconds or more", 10),
    ("the whole book accepted", 60),
    ("a second refused", 2),
    ("a block refused", 1),
    ("the header refused", 1),
    ("bytes after the last block", 1),
    ("the input's end within the header", 2),
    ("several figures outside their ranges", 3),
    ("30 where the book is refused too", 3),
    ("18 where a figure is outside its range too", 2),
    ("12 where a spare byte isn't 0 and a figure is outside its range too", 2),
    ("a range like one inside in its lowest bytes", 1),
];

const SHEETS: &str = "different sheets that open a book";

/// The words for a figure outside its range, all others being inside.
fn alone(figure: usize, side: Side) -> String {
    let side = if side == Side::Below { "below" } else { "above" };
    format!("30 for the {} {} its range alone", RANGES[figure].0, side)
}

/// Where a figure stands in its range.
const STANDS: [&str; 3] = ["at its lowest", "at its highest", "inside its range"];

fn stands(figure: usize, value: i64) -> &'static str {
    let (_, lowest, highest) = RANGES[figure];
    match value {
        _ if value == lowest => STANDS[0],
        _ if value == highest => STANDS[1],
        _ => STANDS[2],
    }
}

/// Everything that must have been seen, and how often.
fn wanted() -> Vec<(String, usize)> {
    let mut wanted: Vec<_> = WANTED.map(|(name, least)| (name.to_string(), least)).to_vec();
    wanted.push((SHEETS.to_string(), 60));
    wanted.extend(passable_ends().map(|(figure, side)| (alone(figure, side), 2)));
    for (figure, (name, _, _)) in RANGES.iter().enumerate() {
        wanted.extend(STANDS.map(|stand| (shows(figure, stand), 2)));
        wanted.extend(NAMES.map(|plant| (format!("the {} shows at {}", name, plant), 10)));
    }
    wanted.extend((0..sheet::LENGTH).map(|length| (format!("12 after {} bytes", length), 1)));
    wanted.extend(SPARE.map(|place| (format!("18 for byte {}", place), 1)));
    wanted
}

fn shows(figure: usize, stand: &str) -> String {
    format!("the {} {} shows", RANGES[figure].0, stand)
}

fn is_inside(sheet: &Sheet, figure: usize) -> bool {
    let (_, lowest, highest) = RANGES[figure];
    (lowest..=highest).contains(&sheet.figures()[figure])
}

/// The bands in the rows of a second.
fn bands(rows: &[Row; 3]) -> [[Band; 3]; 3] {
    rows.map(|row| row.kinds.map(|kind| kind.band))
}

/// A book under a sheet, as it is run.
struct Run {
    book: Book,
    /// The same under sheets with one figure changed by one, and whether a band of a plant was then another one.
    others: Vec<(Book, [bool; 3])>,
    names: BTreeSet<&'static str>,
}

/// Whether a limit isn't a whole number of 540ths.
fn is_finer(limits: Limits) -> bool {
    [limits.low, limits.high].iter().any(|limit| limit.times(540).down() != limit.times(540).up())
}

/// What a plant has after an accepted second; `before` is the status before it.
fn of_plant(names: &mut BTreeSet<&'static str>, plant: &Plant, record: &Record, before: u8) {
    let now = plant.seconds() as i64 - 1;
    let limits = [
        fcr::limits(&plant.fcr, record.fcr_held as i64, &plant.sheet),
        plant.afrr_limits,
        plant.mfrr.limits(now, &plant.sheet),
    ];
    for (limits, name) in limits.into_iter().zip(FINER) {
        if is_finer(limits) {
            names.insert(name);
        }
    }
    if let Some(call) = plant.mfrr.call {
        names.insert(match call.phase(now) {
            Phase::RampingUp => "a call that ramps up",
            Phase::Delivering => "a call that delivers",
            Phase::RampingDown => "a call that ramps down",
            Phase::Resting => "a call that rests again",
        });
        let running = mfrr::Signal {
            leftovers: Vec::new(),
            ..plant.mfrr
        };
        if running.limits(now, &plant.sheet) != limits[2] {
            names.insert("a leftover that widens the band");
        }
        if plant.mfrr.counting(now).count() >= 3 {
            names.insert("three leftovers at once");
        }
    }
    let (on, off) = (plant.status & !before & KINDS != 0, before & !plant.status & KINDS != 0);
    if now > 0 && now % 900 == 0 && (on || off) {
        names.insert("a kind on or off at a quarter hour");
    }
    if now % 900 != 0 && off && plant.status & FAULT != 0 {
        names.insert("a kind off at a fault");
    }
    if plant.status & KINDS == 0 {
        names.insert("no kind on");
    }
}

fn plants(book: &Book) -> [&Plant; 3] {
    [&book.unit, &book.a, &book.b]
}

impl Run {
    fn new(sheet: &Sheet, book: Book) -> Run {
        let other = |figure: usize| {
            let value = sheet.figures()[figure];
            let by = if value == RANGES[figure].2 { -1 } else { 1 };
            Book::open(with(sheet, figure, value + by)).expect("a figure inside its range")
        };
        Run {
            book,
            others: (0..RANGES.len()).map(|figure| (other(figure), [false; 3])).collect(),
            names: BTreeSet::new(),
        }
    }

    fn judge(&mut self, owner: u8, bytes: &[u8]) -> Result<(), Stop> {
        let before = plants(&self.book).map(|plant| plant.status);
        let wanted = bands(&self.book.second(owner, bytes)?);
        for (book, shown) in self.others.iter_mut().filter(|(_, shown)| *shown != [true; 3]) {
            let given = bands(&book.second(owner, bytes).expect("a second that every sheet takes"));
            for plant in 0..3 {
                shown[plant] |= given[plant] != wanted[plant];
            }
        }
        let records = bytes.chunks(record::LENGTH).map(Record::read);
        for ((plant, before), record) in plants(&self.book).into_iter().zip(before).zip(records) {
            of_plant(&mut self.names, plant, &record, before);
        }
        Ok(())
    }

    fn of_end(&mut self, refused: Option<u8>) {
        self.names.extend(match refused {
            None => Some("the whole book accepted"),
            Some(12 | 13 | 18 | 19 | 20) => Some("a block refused"),
            Some(21) => Some("bytes after the last block"),
            Some(_) => Some("a second refused"),
        });
        if self.book.seconds() >= 1_500 {
            self.names.insert("1,500 seconds or more");
        }
    }
}

/// What a book under a sheet that opens it has.
fn of_book(sheet: &Sheet, open: Book, mut bytes: &[u8]) -> Vec<String> {
    let Some(header) = bytes.get(..block::LENGTH) else {
        return vec!["the input's end within the header".to_string()];
    };
    if read_header(header).is_err() {
        return vec!["the header refused".to_string()];
    }
    let mut run = Run::new(sheet, open);
    let refused = match for_each_second(&mut bytes, |owner, second| run.judge(owner, second)) {
        Ok(()) => None,
        Err(Stop::Refused(number)) => Some(number),
        Err(Stop::Failed(_)) => unreachable!("memory does not fail"),
    };
    run.of_end(refused);
    let mut names: Vec<String> = run.names.iter().map(|name| name.to_string()).collect();
    for (figure, (_, shown)) in run.others.iter().enumerate() {
        if shown.contains(&true) {
            names.push(shows(figure, stands(figure, sheet.figures()[figure])));
        }
        let at = NAMES.iter().zip(shown).filter(|(_, &shown)| shown);
        names.extend(at.map(|(plant, _)| format!("the {} shows at {}", RANGES[figure].0, plant)));
    }
    names
}

/// What a sheet that opens a book is.
fn of_sheet(sheet: &Sheet) -> Vec<String> {
    let figures = || sheet.figures().into_iter().enumerate();
    let default = Sheet::default();
    let named = [
        ("the default sheet", *sheet == default),
        ("the default sheet but for 5,000 kW", *sheet == with(&default, 3, 5_000)),
        ("every figure at its lowest", figures().all(|(figure, value)| stands(figure, value) == STANDS[0])),
        ("every figure at its highest", figures().all(|(figure, value)| stands(figure, value) == STANDS[1])),
        ("every figure at an end of its range", figures().all(|(figure, value)| stands(figure, value) != STANDS[2])),
    ];
    named.iter().filter(|(_, is_so)| *is_so).map(|(name, _)| name.to_string()).collect()
}

/// What a sheet with a figure outside its range has, and the book after it.
fn of_refused_sheet(sheet: &Sheet, book: &[u8]) -> Vec<String> {
    let outside: Vec<usize> = (0..RANGES.len()).filter(|&figure| !is_inside(sheet, figure)).collect();
    let mut names = match outside[..] {
        [figure] => {
            let is_below = sheet.figures()[figure] < RANGES[figure].1;
            vec![alone(figure, if is_below { Side::Below } else { Side::Above })]
        }
        _ => vec!["several figures outside their ranges".to_string()],
    };
    let range = sheet.least_range;
    if range > RANGES[3].2 && (1..=RANGES[3].2).contains(&(range & 0xffff)) {
        names.push("a range like one inside in its lowest bytes".to_string());
    }
    if !output_of(book, row_lines).contains("sum ") {
        names.push("30 where the book is refused too".to_string());
    }
    names
}

/// What an input has.
fn contents(input: &[u8]) -> Vec<String> {
    let Some((bytes, book)) = input.split_first_chunk::<{ sheet::LENGTH }>() else {
        let mut names = vec![format!("12 after {} bytes", input.len())];
        let is_spare = SPARE.iter().any(|&place| input.get(place).is_some_and(|&byte| byte != 0));
        if is_spare && input[0] as i64 > RANGES[0].2 {
            names.push("12 where a spare byte isn't 0 and a figure is outside its range too".to_string());
        }
        return names;
    };
    let mut figures = *bytes;
    let mut names: Vec<String> = Vec::new();
    for place in SPARE {
        if figures[place] != 0 {
            names.push(format!("18 for byte {}", place));
            figures[place] = 0;
        }
    }
    let sheet = Sheet::read(&figures).expect("no spare byte");
    match Book::open(sheet) {
        Err(_) if !names.is_empty() => vec!["18 where a figure is outside its range too".to_string()],
        Err(_) => of_refused_sheet(&sheet, book),
        Ok(_) if !names.is_empty() => names,
        Ok(open) => [of_sheet(&sheet), of_book(&sheet, open, book)].concat(),
    }
}

/// Everything wanted, in how many inputs it must be, and in how many it is.
pub fn counted(inputs: impl Iterator<Item = Vec<u8>>) -> Vec<(String, usize, usize)> {
    let mut counts: Vec<_> = wanted().into_iter().map(|(name, least)| (name, least, 0)).collect();
    let mut sheets = BTreeSet::new();
    for input in inputs {
        let names = contents(&input);
        for (name, _, count) in &mut counts {
            *count += names.contains(name) as usize;
        }
        let sheet = input.get(..sheet::LENGTH).map(Sheet::read);
        sheets.extend(sheet.and_then(|sheet| sheet.and_then(Sheet::checked).ok()));
    }
    for (name, _, count) in &mut counts {
        if name == SHEETS {
            *count = sheets.len();
        }
    }
    counts
}

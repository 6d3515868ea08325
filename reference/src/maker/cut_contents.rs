//! What is among inputs that cut a book, by their bytes and not by what their maker meant to write.

use crate::block::{self, read_header};
use crate::book::Book;
use crate::cut::{moved_back, COUNT};
use crate::line::NAMES;
use crate::mfrr::{Phase, PLACES};
use crate::plant::{Plant, FAULT, KINDS, MOST_SECONDS};
use crate::power::Limits;
use crate::program::{for_each_second, Stop};
use crate::record::{self, Record};

const ACROSS: &str = "a call, a leftover and both windows of one plant across the cut, and 30 seconds after it";

/// What a comparison must have seen, and in how many inputs. "Across the cut" is in the first second after it.
const WANTED: [(&str, usize); 47] = [
    (ACROSS, 60),
    ("both sum lines", 20),
    ("more seconds after the cut than before it", 3),
    ("eight leftovers across the cut", 3),
    ("a leftover whose last second is the first after the cut", 1),
    ("a leftover whose last second is the last before the cut", 1),
    ("a call in the last second before the cut", 1),
    ("a call in the first second after the cut", 3),
    ("a call after the cut that ends one from before it", 20),
    ("a call after the cut that ramps down there", 2),
    ("a ramp up whose last second is the first after the cut", 1),
    ("a delivery whose last second is the first after the cut", 1),
    ("no kind on before and after the cut, and both sum lines", 1),
    ("a kind on in the first second after the cut", 1),
    ("a kind off in the first second after the cut", 1),
    ("a kind on or off at a later quarter hour after the cut", 1),
    ("a kind off at a fault after the cut", 1),
    ("a second refused before the cut", 1),
    ("a block refused before the cut", 1),
    ("the block of the first second after the cut refused", 1),
    ("refused in the first second after the cut", 2),
    ("9 in the first second after the cut", 1),
    ("refused 2 after the cut", 1),
    ("refused 3 after the cut", 1),
    ("refused 4 after the cut", 1),
    ("refused 5 after the cut", 1),
    ("refused 6 after the cut", 1),
    ("refused 7 after the cut", 1),
    ("refused 8 after the cut", 1),
    ("refused 9 after the cut", 1),
    ("refused 10 after the cut", 1),
    ("refused 11 after the cut", 1),
    ("refused 24 after the cut", 1),
    ("refused 25 after the cut", 1),
    ("refused 26 after the cut", 1),
    ("7 for an end without a call that is the cut's second", 1),
    ("a block refused after the cut", 3),
    ("the input's end within a block after the cut", 1),
    ("bytes after the last block, after the cut", 1),
    ("29 at a multiple of 4", 2),
    ("29 within a block", 3),
    ("29 where the second is refused too", 1),
    ("cut at 0", 1),
    ("cut at the book's length, a multiple of 900", 1),
    ("cut after the last second", 1),
    ("cut after 90,000 seconds", 1),
    ("nothing read", 2),
];

const PHASES: [(Phase, &str); 3] = [
    (Phase::RampingUp, "ramps up"),
    (Phase::Delivering, "delivers"),
    (Phase::RampingDown, "ramps down"),
];

/// Parts of a plant's state, lost or rounded: a part shows where a row after the cut is then another one.
const PARTS: [(&str, fn(&mut Plant)); 6] = [
    ("FCR setpoints", |plant| plant.fcr.fill(0)),
    ("aFRR setpoints", |plant| plant.afrr.fill(0)),
    ("aFRR limits", |plant| plant.afrr_limits = Limits::default()),
    ("fractions of a kW in aFRR limits", |plant| plant.afrr_limits = rounded(plant.afrr_limits)),
    ("call", |plant| plant.mfrr.call = None),
    ("leftovers", |plant| plant.mfrr.leftovers.clear()),
];

fn rounded(limits: Limits) -> Limits {
    let band = limits.published();
    Limits {
        low: band.low.into(),
        high: band.high.into(),
    }
}

/// Seconds after the cut that are looked at for what shows.
const LOOK: usize = 600;

/// Everything that must have been seen, and how often.
pub fn wanted() -> Vec<(String, usize)> {
    let mut wanted: Vec<_> = WANTED.map(|(name, least)| (name.to_string(), least)).to_vec();
    for name in NAMES {
        wanted.extend(PHASES.map(|(_, phase)| (format!("{} {} across the cut", name, phase), 1)));
        wanted.extend(PARTS.map(|(part, _)| (format!("{} of {} show after the cut", part, name), 3)));
    }
    wanted
}

/// An input as it is run.
#[derive(Default)]
struct Run {
    cut: usize,
    owner: u8,
    /// The book at the cut, before it is handed over, and whether its next second is refused.
    closing: Option<Book>,
    next_is_refused: bool,
    /// The book that is open.
    book: Book,
    /// The accepted seconds after the cut, their ends moved back.
    rest: Vec<Vec<u8>>,
    names: Vec<String>,
}

fn plants(book: &Book) -> [&Plant; 3] {
    [&book.unit, &book.a, &book.b]
}

fn plant(book: &mut Book, number: usize) -> &mut Plant {
    match number {
        0 => &mut book.unit,
        1 => &mut book.a,
        _ => &mut book.b,
    }
}

fn changes(setpoints: &[i64]) -> bool {
    setpoints.windows(2).any(|pair| pair[0] != pair[1])
}

/// A change in second j is from j - 1 to j.
fn changes_since(setpoints: &[i64], seconds: usize) -> bool {
    changes(&setpoints[setpoints.len().saturating_sub(seconds + 1)..])
}

impl Run {
    fn add(&mut self, name: &str) {
        self.names.push(name.to_string());
    }

    fn judge(&mut self, owner: u8, bytes: &[u8]) -> Result<(), Stop> {
        self.owner = owner;
        if self.closing.is_none() && self.book.seconds() == self.cut {
            self.next_is_refused = self.book.clone().second(owner, bytes).is_err();
            self.closing = Some(self.book.clone());
            self.book = self.book.hand_over()?;
        }
        if self.closing.is_none() {
            self.book.second(owner, bytes)?;
            return Ok(());
        }
        let moved = moved_back(bytes, self.cut as u32);
        let before = states(&self.book);
        if let Err(refusal) = self.book.second(owner, &moved) {
            let ends = bytes.chunks(record::LENGTH).map(Record::read).filter(|record| record.call == 0);
            if refusal.number == 7 && ends.map(|record| record.delivery_end).any(|end| end as usize == self.cut) {
                self.add("7 for an end without a call that is the cut's second");
            }
            return Err(refusal.into());
        }
        self.of_accepted(&before, &moved);
        self.rest.push(moved);
        Ok(())
    }

    /// What a second after the cut has; `before` are the plants' states before it.
    fn of_accepted(&mut self, before: &[State; 3], bytes: &[u8]) {
        let now = self.book.seconds() as i64 - 1;
        for (state, bytes) in before.iter().zip(bytes.chunks(record::LENGTH)) {
            let record = Record::read(bytes);
            let on = record.status & !state.status & KINDS != 0;
            let off = state.status & !record.status & KINDS != 0;
            if record.call == 1 && now == 0 {
                self.add("a call in the first second after the cut");
            }
            if record.call == 1 && state.called_at.is_some_and(|at| at < 0) && state.phase != Some(Phase::Resting) {
                self.add("a call after the cut that ends one from before it");
            }
            if state.called_at.is_some_and(|at| at >= 0) && state.phase == Some(Phase::RampingDown) {
                self.add("a call after the cut that ramps down there");
            }
            match now {
                0 if on => self.add("a kind on in the first second after the cut"),
                0 if off => self.add("a kind off in the first second after the cut"),
                _ if now % 900 == 0 && (on || off) => self.add("a kind on or off at a later quarter hour after the cut"),
                _ if off && record.status & FAULT != 0 => self.add("a kind off at a fault after the cut"),
                _ => {}
            }
        }
    }

    /// What runs across the cut.
    fn of_cut(&mut self, closing: &Book) {
        let now = self.cut as i64;
        for (name, plant) in NAMES.iter().zip(plants(closing)) {
            let call = plant.mfrr.call;
            let leftovers = plant.mfrr.counting(now).count();
            for (phase, words) in PHASES {
                if call.is_some_and(|call| call.phase(now) == phase) {
                    self.add(&format!("{} {} across the cut", name, words));
                }
            }
            let has_windows = changes_since(&plant.fcr, 30) && changes_since(&plant.afrr, 300);
            if !plant.mfrr.resting(now) && leftovers > 0 && has_windows && self.rest.len() >= 30 {
                self.add(ACROSS);
            }
            if leftovers == PLACES {
                self.add("eight leftovers across the cut");
            }
            for leftover in &plant.mfrr.leftovers {
                if leftover.last == now {
                    self.add("a leftover whose last second is the first after the cut");
                }
                if leftover.last == now - 1 {
                    self.add("a leftover whose last second is the last before the cut");
                }
            }
            if call.is_some_and(|call| call.at == now - 1) {
                self.add("a call in the last second before the cut");
            }
            if call.is_some_and(|call| call.at + 900 == now) {
                self.add("a ramp up whose last second is the first after the cut");
            }
            if call.is_some_and(|call| call.at + 900 < now && call.end == now) {
                self.add("a delivery whose last second is the first after the cut");
            }
        }
    }

    /// Whether a row of a plant after the cut is another one where a part of its state is lost.
    fn shows(&self, opened: &Book, number: usize, lose: fn(&mut Plant)) -> bool {
        let mut book = opened.clone();
        let mut other = opened.clone();
        lose(plant(&mut other, number));
        self.rest.iter().take(LOOK).any(|bytes| {
            let row = book.second(self.owner, bytes).map(|rows| rows[number]);
            row != other.second(self.owner, bytes).map(|rows| rows[number])
        })
    }

    fn of_parts(&mut self, opened: &Book) {
        for (number, name) in NAMES.iter().enumerate() {
            for (part, lose) in PARTS {
                if self.shows(opened, number, lose) {
                    self.add(&format!("{} of {} show after the cut", part, name));
                }
            }
        }
    }

    /// What ended it: the number of a refusal, or none.
    fn of_end(&mut self, refused: Option<u8>) {
        let is_cut = self.closing.is_some();
        match refused {
            None if is_cut => {
                self.add("both sum lines");
                if self.book.sums.open != 0 && self.closing.as_ref().is_some_and(|book| book.sums.open != 0) {
                    self.add("no kind on before and after the cut, and both sum lines");
                }
            }
            None if self.cut == self.book.seconds() && self.cut % 900 == 0 => {
                self.add("cut at the book's length, a multiple of 900");
            }
            None if self.cut > MOST_SECONDS => self.add("cut after 90,000 seconds"),
            None => self.add("cut after the last second"),
            Some(29) => {
                self.add(if self.cut % 4 == 0 { "29 at a multiple of 4" } else { "29 within a block" });
                if self.next_is_refused {
                    self.add("29 where the second is refused too");
                }
            }
            Some(12) if is_cut => self.add("the input's end within a block after the cut"),
            Some(13 | 18 | 19 | 20) if is_cut => self.add("a block refused after the cut"),
            Some(21) if is_cut => self.add("bytes after the last block, after the cut"),
            Some(number) if is_cut && self.rest.is_empty() => {
                self.add("refused in the first second after the cut");
                if number == 9 {
                    self.add("9 in the first second after the cut");
                }
            }
            Some(number) if is_cut => self.add(&format!("refused {} after the cut", number)),
            Some(21) if self.cut > self.book.seconds() => self.add("cut after the last second"),
            Some(12 | 13 | 18 | 19 | 20) if self.cut == self.book.seconds() => {
                self.add("the block of the first second after the cut refused");
            }
            Some(12 | 13 | 18 | 19 | 20) => self.add("a block refused before the cut"),
            Some(_) => self.add("a second refused before the cut"),
        }
    }
}

/// What is asked of a plant's state before a second.
struct State {
    status: u8,
    called_at: Option<i64>,
    phase: Option<Phase>,
}

fn states(book: &Book) -> [State; 3] {
    plants(book).map(|plant| State {
        status: plant.status,
        called_at: plant.mfrr.call.map(|call| call.at),
        phase: plant.mfrr.call.map(|call| call.phase(plant.seconds() as i64)),
    })
}

/// What an input has.
pub fn contents(input: &[u8]) -> Vec<String> {
    let Some((count, mut bytes)) = input.split_first_chunk::<COUNT>() else {
        return vec!["nothing read".to_string()];
    };
    if bytes.get(..block::LENGTH).is_none_or(|header| read_header(header).is_err()) {
        return vec!["nothing read".to_string()];
    }
    let mut run = Run {
        cut: u32::from_le_bytes(*count) as usize,
        ..Run::default()
    };
    let refused = match for_each_second(&mut bytes, |owner, second| run.judge(owner, second)) {
        Ok(()) => None,
        Err(Stop::Refused(number)) => Some(number),
        Err(Stop::Failed(_)) => unreachable!("memory does not fail"),
    };
    if let Some(Ok(opened)) = run.closing.as_ref().map(Book::hand_over) {
        let closing = run.closing.clone().expect("a closing book");
        run.of_cut(&closing);
        run.of_parts(&opened);
        if run.cut == 0 {
            run.add("cut at 0");
        } else if run.rest.len() > run.cut {
            run.add("more seconds after the cut than before it");
        }
    }
    run.of_end(refused);
    run.names
}

/// Everything wanted, in how many inputs it must be, and in how many it is.
pub fn counted(inputs: impl Iterator<Item = Vec<u8>>) -> Vec<(String, usize, usize)> {
    let mut counts: Vec<_> = wanted().into_iter().map(|(name, least)| (name, least, 0)).collect();
    for input in inputs {
        let names = contents(&input);
        for (name, _, count) in &mut counts {
            *count += names.contains(name) as usize;
        }
    }
    counts
}

//! Books that are cut, by seed (document 02, W7): four bytes that say at which second, then the book.

use super::broken::{call, spoil, spoil_block, Block, Place};
use super::random::Random;
use super::tracks::{seconds, Calls, Errors, Faults, Mover, Switch, Track, Values};
use super::{book_blocks, second_bytes, Second};
use crate::block::LENGTH;
use crate::book::Book;
use crate::mfrr::{Phase, PLACES};
use std::array;
use std::collections::BTreeSet;

/// What a program that cuts a book reads.
pub struct Input {
    pub name: String,
    pub bytes: Vec<u8>,
}

/// What runs across the cut, or what is special about it. Those up to `Edges` have, in one plant at least, a running call, a
/// leftover, a change of FCR in the last 30 seconds and one of aFRR in the last 300, and at least 30 seconds after the cut.
#[derive(Clone, Copy, Debug, PartialEq)]
enum Style {
    /// A call that ramps up, delivers or ramps down at the cut, in U, A and B; which one has which is in turn.
    Phases(usize),
    Leftovers,
    /// The same with more seconds after the cut than before it, and a call after it that comes to its delivery end.
    MoreAfter,
    /// All places taken at the cut, in some books a call for a ninth after it.
    Eight,
    /// FCR changes once, so many seconds before the cut.
    Fcr,
    /// aFRR changes once, so many seconds before the cut; in one plant its held power.
    Afrr,
    /// Kinds going on and off; in some books one plant with no kind on.
    Switches,
    Ranges,
    /// A block after the cut that is refused.
    Blocks,
    /// Calls whose times lie at the cut or beside it.
    Edges,
    /// Refused before the cut, or in its first second.
    Before,
    /// No multiple of 900.
    Number29,
    /// The book has no such second.
    NoSuchSecond,
    /// Cut at 0, or refused before any second.
    Zero,
}

const STYLES: [Style; 16] = [
    Style::Phases(0),
    Style::Phases(1),
    Style::Phases(2),
    Style::Leftovers,
    Style::MoreAfter,
    Style::Eight,
    Style::Fcr,
    Style::Afrr,
    Style::Switches,
    Style::Ranges,
    Style::Blocks,
    Style::Edges,
    Style::Before,
    Style::Number29,
    Style::NoSuchSecond,
    Style::Zero,
];

/// What ends a book after the cut: the number of a plant second, or one of these.
#[derive(Clone, Copy, Debug)]
enum End {
    Plant(u8),
    /// 7: a delivery end without a call, which would be 0 if it were moved back.
    EndWithoutCall,
    CutShort,
    OneByteMore,
}

const ENDS: [End; 15] = [
    End::Plant(9),
    End::Plant(26),
    End::Plant(25),
    End::EndWithoutCall,
    End::Plant(2),
    End::Plant(3),
    End::CutShort,
    End::Plant(4),
    End::Plant(5),
    End::OneByteMore,
    End::Plant(6),
    End::Plant(7),
    End::Plant(8),
    End::Plant(11),
    End::Plant(24),
];

/// A book on its way: where it is cut, and the plant that has everything across the cut, with all kinds on.
struct Base {
    owner: u8,
    cut: i64,
    main: usize,
    seconds: Vec<Second>,
}

impl Base {
    fn count(&self) -> i64 {
        self.seconds.len() as i64
    }

    fn bytes(&self) -> Vec<u8> {
        book_blocks(self.owner, &self.seconds).concat()
    }

    /// A second after the cut, no multiple of 900.
    fn after(&self, random: &mut Random) -> i64 {
        let at = random.within(self.cut + 40, self.count() - 1);
        if at % 900 == 0 {
            at - 1
        } else {
            at
        }
    }

    /// Gives the main plant's record of a second the fault that has this number.
    fn spoil(&mut self, number: u8, at: i64, random: &mut Random) {
        let way = random.index(9);
        spoil(&mut self.seconds[at as usize][self.main], number, way, at as usize, random);
    }

    /// The main plant's mFRR setpoints, up to the first second that is refused.
    fn mfrr_setpoints(&self) -> Vec<i64> {
        let mut book = Book::default();
        let judged = self.seconds.iter().map_while(|second| book.second(self.owner, &second_bytes(second)).ok());
        judged.map(|rows| rows[self.main].kinds[2].setpoint).collect()
    }
}

/// A delivery end for a call at `now`, at `least` or later.
fn end(now: i64, least: i64, random: &mut Random) -> i64 {
    let first = ((now + 900).max(least) + 899) / 900;
    random.within(first, (now + 3_600) / 900) * 900
}

/// So many different seconds, in order.
fn different(count: usize, first: i64, last: i64, random: &mut Random) -> Vec<i64> {
    let mut seconds = BTreeSet::new();
    while seconds.len() < count {
        seconds.insert(random.within(first, last));
    }
    seconds.into_iter().collect()
}

/// Calls of which the last is in this phase in the first second after the cut, with leftovers that still count there: `leftovers`
/// of them for one that ramps up, else one. Cuts and delivery ends are multiples of 900, so a call that ramps down there does so
/// for the last second. It needs a cut at 3,600 or later to have a leftover, one that delivers 2,700.
fn before(phase: Phase, leftovers: usize, cut: i64, random: &mut Random) -> Vec<(i64, i64)> {
    match phase {
        Phase::Delivering => {
            let old_end = cut + random.pick(&[0, 900]);
            let old = random.within((old_end - 3_600).max(0), cut - 1_802);
            let new = random.within(old + 901, cut - 901);
            vec![(old, old_end), (new, end(new, cut, random))]
        }
        Phase::RampingDown => {
            let old = random.within(cut - 3_600, cut - 2_701);
            vec![(old, cut), (random.within(old + 901, cut - 1_800), cut - 900)]
        }
        _ => {
            let earliest = if leftovers == PLACES { 860 } else { 900 };
            let calls = different(leftovers + 1, cut - earliest, cut - 1, random);
            calls.into_iter().map(|now| (now, end(now, 0, random))).collect()
        }
    }
}

/// Calls after the cut.
fn later(cut: i64, count: i64, random: &mut Random) -> Vec<(i64, i64)> {
    let soon = random.within(2, 300);
    let mut now = cut + random.pick(&[0, 1, soon, soon]);
    let mut calls = Vec::new();
    while now < count {
        calls.push((now, end(now, 0, random)));
        now += random.within(1, 700);
    }
    calls
}

/// Calls beside the cut, in six ways. The cut is at 1,800 or later.
fn edges(way: usize, cut: i64, random: &mut Random) -> Vec<(i64, i64)> {
    let any = |now: i64, random: &mut Random| (now, end(now, 0, random));
    match way % 6 {
        0 => vec![(cut - 900, cut)], // the last second up is the first after the cut, then down
        1 => vec![any(cut - 900, random), any(cut - 1, random)], // a leftover of the first second after it
        2 => vec![any(cut - 900, random), any(cut - 899, random), any(cut, random)],
        3 => vec![any(cut - 901, random), any(cut - 500, random)], // a leftover of the last second before it
        4 => vec![(cut - 1_800, cut - 900), any(cut, random)],
        _ => vec![(cut - 1_000, cut), any(cut + 1, random)],
    }
}

/// aFRR setpoints that change at least every 120 seconds.
fn afrr(random: &mut Random) -> Mover {
    match random.index(3) {
        0 => Mover::new(Values::Walk(900, -20_000, 20_000), &[1, 4]),
        1 => Mover::new(Values::Uniform(-9_000, 9_000), &[20, 90]),
        _ => Mover::new(Values::Uniform(-200_000, 200_000), &[40, 120]),
    }
}

fn track(random: &mut Random) -> Track {
    let far = Values::Uniform(-20_000, 20_000);
    Track {
        fcr_held: Mover::fixed(random.within(1, 20) * 500),
        deviation: Mover::new(Values::Walk(25, -210, 210), &[1, 3]),
        up: Mover::fixed(random.within(0, 20) * 500),
        down: Mover::fixed(random.within(0, 20) * 500),
        afrr: afrr(random),
        working_point: Mover::fixed(random.within(-5_000, 5_000)),
        calls: Calls::Planned,
        targets: random.pick(&[far, far, Values::Uniform(5_000, 9_000)]),
        errors: random.pick(&[Errors::AtBands, Errors::Noise(900)]),
        ..Track::still()
    }
}

/// How many seconds before the cut the one change is, for FCR and aFRR.
const FCR_AGES: [i64; 9] = [1, 15, 28, 2, 16, 29, 14, 17, 30];
const AFRR_AGES: [i64; 10] = [299, 30, 1, 271, 31, 300, 270, 29, 269, 298];

/// Longer than any book here.
const NEVER: &[i64] = &[100_000];

/// The one change of FCR, from one end of its formula to somewhere on the other side.
fn one_fcr_change(at: i64, random: &mut Random) -> Mover {
    let (from, to): (i64, &[i64]) = random.pick(&[(-200, &[200, 199, 100]), (200, &[-200, -199, -100])]);
    Mover::new(Values::Choice(to), NEVER).starting_at(from).moving_from(at)
}

/// The one change of aFRR.
fn one_afrr_change(at: i64, random: &mut Random) -> Mover {
    let (from, to): (i64, &[i64]) = random.pick(&[
        (100_000, &[0, 99_000, -100_000]),
        (-9_000, &[0, -3_999, -4_000, -4_001, 9_000]),
        (0, &[6_000, -6_000, 1_000_000]),
    ]);
    Mover::new(Values::Choice(to), NEVER).starting_at(from).moving_from(at)
}

/// Powers at the ends of their ranges.
fn at_the_ends(track: &mut Track, is_main: bool, random: &mut Random) {
    let held = Values::Choice(&[0, 1, 999_999, 1_000_000, 1_000_000]);
    track.fcr_held = if is_main { Mover::fixed(1_000_000) } else { Mover::new(held, &[1, 60]) };
    track.deviation = Mover::new(Values::Choice(&[-5_000, -200, -199, -10, 0, 9, 199, 200, 5_000]), &[1, 2]);
    track.up = Mover::new(held, &[1, 60]);
    track.down = Mover::new(held, &[1, 60]);
    track.afrr = Mover::new(Values::Choice(&[-1_000_000, -999_999, 0, 999_999, 1_000_000]), &[1, 30]);
    track.targets = Values::Choice(&[-1_000_000, -999_999, 999_999, 1_000_000]);
    track.working_point = Mover::new(Values::Choice(&[-4_000_000, 0, 4_000_000]), &[1, 9]);
    let full = Values::Choice(&[-4_000_000, -3_999_999, 0, 3_999_999, 4_000_000]);
    track.errors = random.pick(&[Errors::AtBands, Errors::Measured(full)]);
}

/// A sound book of a style.
fn sound(style: Style, round: usize, owner: u8, random: &mut Random) -> Base {
    let cut = match style {
        Style::Phases(_) => random.pick(&[3_600, 3_600, 4_500]),
        Style::Leftovers | Style::Eight => random.pick(&[900, 1_800, 2_700]),
        Style::MoreAfter => 900,
        Style::Edges => random.pick(&[1_800, 2_700]),
        _ => random.pick(&[900, 1_800]),
    };
    let count = cut
        + match style {
            Style::MoreAfter => random.within(1_950, 2_600),
            Style::Switches => random.within(910, 1_900),
            _ => random.within(400, 1_400),
        };
    let main = match style {
        Style::Phases(turn) => (round + turn) % 3,
        _ => round % 3,
    };
    let mut tracks: [Track; 3] = array::from_fn(|plant| {
        let is_main = plant == main;
        let mut track = track(random);
        let phase = match (plant + 3 - main) % 3 {
            1 if cut >= 2_700 => Phase::Delivering,
            2 if cut >= 3_600 => Phase::RampingDown,
            _ => Phase::RampingUp,
        };
        let leftovers = if is_main && style == Style::Eight { PLACES } else { random.within(is_main as i64, 3) as usize };
        track.planned = match style {
            Style::Edges if !is_main => edges(3 * round + plant, cut, random),
            _ => before(phase, leftovers, cut, random),
        };
        if is_main && style == Style::Eight {
            let freed = track.planned[0].0 + 901;
            track.planned.push((freed, end(freed, 0, random)));
        }
        track.planned.extend(match style {
            Style::MoreAfter if is_main => {
                let now = cut + random.within(0, 100);
                vec![(now, (now + 900 + 899) / 900 * 900)]
            }
            _ => later(cut, count, random),
        });
        let turn = 3 * round + plant;
        match style {
            Style::Fcr => track.deviation = one_fcr_change(cut - FCR_AGES[turn % FCR_AGES.len()], random),
            Style::Afrr => {
                track.afrr = one_afrr_change(cut - AFRR_AGES[turn % AFRR_AGES.len()], random);
                if !is_main {
                    let last = cut - random.within(1, 30);
                    track.up = Mover::new(Values::Choice(&[0, 20]), NEVER).starting_at(1_000_000).moving_from(last);
                }
            }
            Style::Switches => {
                track.faults = random.pick(&[Faults::BitAlone, Faults::Anywhere(200), Faults::BeforeQuarters]);
                if round % 4 == 0 && plant == (main + 1) % 3 {
                    track.switches = [Switch::Off; 3];
                    track.calls = Calls::Never;
                } else if !is_main {
                    track.switches = [Switch::Sometimes, Switch::Sometimes, Switch::On];
                }
            }
            Style::Ranges => at_the_ends(&mut track, is_main, random),
            _ => {}
        }
        track
    });
    Base {
        owner,
        cut,
        main,
        seconds: seconds(owner, &mut tracks, count as usize, random),
    }
}

/// Ends a book after the cut; the bytes of the whole book, and what ends it.
fn ended(mut base: Base, end: End, random: &mut Random) -> (Vec<u8>, String) {
    let mut at = base.after(random);
    match end {
        End::Plant(number) => {
            if number == 25 {
                let setpoints = base.mfrr_setpoints();
                let is_moving = |at: &i64| at % 900 != 0 && setpoints[*at as usize] != 0;
                at = (at..base.count()).chain(base.cut + 40..at).find(is_moving).unwrap_or(at);
            }
            base.spoil(number, at, random);
            (base.bytes(), format!("{} at {}", number, at))
        }
        End::EndWithoutCall => {
            let record = &mut base.seconds[at as usize][random.index(3)];
            (record.call, record.mfrr_target, record.delivery_end) = (0, 0, base.cut as u32);
            (base.bytes(), format!("an end without a call at {}", at))
        }
        End::CutShort => {
            let mut bytes = base.bytes();
            bytes.truncate(LENGTH * (at as usize / 4 + 1) + random.index(LENGTH));
            (bytes, format!("cut short about {}", at))
        }
        End::OneByteMore => {
            let mut bytes = base.bytes();
            bytes.push(0);
            (bytes, "a byte more".to_string())
        }
    }
}

const BLOCKS: [Block; 5] = [
    Block::Check,
    Block::Number,
    Block::Count,
    Block::SpareAfterSeconds,
    Block::SpareBeforeSeconds,
];

/// The book with a fault in the block that has this second.
fn with_block_fault(base: &Base, at: i64, fault: Block, random: &mut Random) -> Vec<u8> {
    let mut blocks = book_blocks(base.owner, &base.seconds);
    let number = at as usize / 4 + 1;
    spoil_block(&mut blocks[number], number, fault, Place::Middle, random);
    blocks.concat()
}

/// Refused before the cut, in the block that has its first second, or in that second.
fn refused_early(round: usize, mut base: Base, random: &mut Random) -> (i64, Vec<u8>, String) {
    let cut = base.cut;
    let anywhere = random.within(0, cut - 1);
    let fault = random.pick(&BLOCKS);
    let (bytes, what) = match round % 5 {
        0 => {
            let at = random.pick(&[anywhere, cut - 1]);
            let number = random.pick(&[2, 3, 4, 5, 6, 7, 8, 9, 11, 24]);
            base.spoil(number, at, random);
            (base.bytes(), format!("{} at {}", number, at))
        }
        1 => {
            let end = random.pick(&[0, 900, cut - 900, cut, cut + 899, cut + 901, cut + 4_500]);
            let record = &mut base.seconds[cut as usize][base.main];
            call(record, cut, random);
            record.delivery_end = end as u32;
            (base.bytes(), format!("end {} in the first second after it", end))
        }
        2 => (with_block_fault(&base, anywhere, fault, random), format!("{:?} of the block of {}", fault, anywhere)),
        3 => (with_block_fault(&base, cut, fault, random), format!("{:?} of the block of {}", fault, cut)),
        _ => {
            let number = random.pick(&[2, 3, 4, 5, 6, 7, 8, 11, 24, 25]);
            base.spoil(number, cut, random);
            (base.bytes(), format!("{} in the first second after it", number))
        }
    };
    (cut, bytes, what)
}

/// Cuts that are no multiples of 900.
fn number_29(round: usize, mut base: Base, random: &mut Random) -> (i64, Vec<u8>, String) {
    match round % 5 {
        0 => (random.pick(&[450, 450, 2]), base.bytes(), "a half of 900".to_string()),
        1 => (random.pick(&[300, 600, 1_200]), base.bytes(), "whole minutes".to_string()),
        2 => (899, base.bytes(), "one before".to_string()),
        3 => {
            base.spoil(2, 901, random);
            (901, base.bytes(), "one after, refused there too".to_string())
        }
        _ => {
            let cut = 4 * random.within(1, 224);
            (cut, with_block_fault(&base, cut + 4, Block::Check, random), "the block after it refused too".to_string())
        }
    }
}

/// Cuts after the last second.
fn no_such_second(round: usize, mut base: Base, random: &mut Random) -> (i64, Vec<u8>, String) {
    let most = u32::MAX as i64;
    match round % 5 {
        0 => {
            base.seconds.truncate(base.cut as usize);
            (base.cut, base.bytes(), "all seconds before it".to_string())
        }
        1 => {
            let count = base.count();
            (count + random.pick(&[0, 1, 2, 900]), base.bytes(), "after the last".to_string())
        }
        2 => (random.pick(&[most, 4_294_966_500, 90_000, 90_900]), base.bytes(), "far after the last".to_string()),
        3 => (900 << random.pick(&[8, 16, 20]), base.bytes(), "900 in other bytes".to_string()),
        _ => {
            let mut bytes = base.bytes();
            bytes.push(0);
            (random.pick(&[65_536, 65_536 + 900, (1 << 24) + 900]), bytes, "after the last, and a byte more".to_string())
        }
    }
}

/// Cuts at 0; headers and counts that are refused.
fn zero(round: usize, mut base: Base, random: &mut Random) -> (i64, Vec<u8>, String) {
    match round % 5 {
        0 => (0, base.bytes(), "cut at 0".to_string()),
        1 => {
            let number = random.pick(&[2, 3, 4, 5, 6, 7, 8, 9, 11, 24]);
            base.spoil(number, 0, random);
            (0, base.bytes(), format!("cut at 0, {} there", number))
        }
        2 => {
            let fault = random.pick(&[Block::Check, Block::Count, Block::SpareAfterSeconds]);
            (0, with_block_fault(&base, 0, fault, random), format!("cut at 0, {:?} of the first block", fault))
        }
        3 => {
            let mut bytes = base.bytes();
            bytes[random.index(LENGTH)] ^= 1 << random.index(8);
            (random.pick(&[0, 900, 899]), bytes, "the header refused".to_string())
        }
        _ => (base.cut, Vec::new(), "no book".to_string()),
    }
}

/// A call of the main plant while all its places are taken, in the last second of the first leftover or before it.
fn ninth(mut base: Base, is_last: bool, random: &mut Random) -> (i64, Vec<u8>, String) {
    let first = base.seconds.iter().position(|second| second[base.main].call == 1).unwrap_or(0) as i64;
    let last = (first + 900).min(base.count() - 1);
    let at = if is_last { last } else { random.within(base.cut + 40, last) };
    call(&mut base.seconds[at as usize][base.main], at, random);
    (base.cut, base.bytes(), format!("a ninth leftover at {}", at))
}

/// The input of a seed.
pub fn make(seed: u64) -> Input {
    let turn = (seed % STYLES.len() as u64) as usize;
    let round = (seed / STYLES.len() as u64) as usize;
    let style = STYLES[turn];
    let owner = (seed % 8) as u8 ^ (round % 8) as u8;
    let mut random = Random::new(seed);
    let base = sound(style, round, owner, &mut random);
    let random = &mut random;
    let (cut, bytes, what) = match style {
        Style::Before => refused_early(round, base, random),
        Style::Number29 => number_29(round, base, random),
        Style::NoSuchSecond => no_such_second(round, base, random),
        Style::Zero => zero(round, base, random),
        Style::Blocks => {
            let at = base.after(random);
            let fault = BLOCKS[round % BLOCKS.len()];
            (base.cut, with_block_fault(&base, at, fault, random), format!("{:?} of the block of {}", fault, at))
        }
        Style::Eight if round % 2 == 0 => ninth(base, round % 4 == 0, random),
        Style::Eight => (base.cut, base.bytes(), "no ninth".to_string()),
        _ if round % 2 == 1 => {
            let cut = base.cut;
            let place = turn - (turn > 5) as usize - (turn > 10) as usize; // among the styles that end so
            let (bytes, what) = ended(base, ENDS[(round / 2 * 10 + place) % ENDS.len()], random);
            (cut, bytes, what)
        }
        _ => (base.cut, base.bytes(), "sound".to_string()),
    };
    let mut input = (cut as u32).to_le_bytes().to_vec();
    if style == Style::Zero && bytes.is_empty() {
        input.truncate(random.index(4));
    }
    input.extend_from_slice(&bytes);
    Input {
        name: format!("{:?}, cut at {}: {}", style, cut, what),
        bytes: input,
    }
}

//! Broken books: every refusal number that a book can reach, alone and two at once.

use super::families::Made;
use super::random::Random;
use super::tracks::{seconds, Calls, End, Errors, Mover, Track, Values};
use super::{book_blocks, Second};
use crate::block::{seal, LENGTH};
use crate::plant::FAULT;
use crate::record::Record;
use std::array;

/// Where in a book: its first, a middle or its last second or block, of a short one; or, in a long one, anywhere from
/// second `LATE` on.
#[derive(Clone, Copy, Debug, PartialEq)]
pub enum Place {
    First,
    Middle,
    Last,
    Late,
}

const PLACES: [Place; 4] = [Place::First, Place::Middle, Place::Last, Place::Late];

/// Far behind the 512 seconds that a program may read at once.
const LATE: usize = 600;

/// The block that second `LATE` is the first of.
const FIRST_LATE: i64 = LATE as i64 / 4 + 1;

/// How long a book is.
#[derive(Clone, Copy, Debug, PartialEq)]
pub enum Length {
    Short,
    Long,
}

const LENGTHS: [Length; 2] = [Length::Short, Length::Long];

impl Place {
    fn length(self) -> Length {
        if self == Place::Late {
            Length::Long
        } else {
            Length::Short
        }
    }
}

const PLANTS: [&str; 3] = ["U", "A", "B"];

/// The numbers of a plant second that a book can reach, in the order in which they are given.
const NUMBERS: [u8; 13] = [2, 3, 4, 5, 6, 26, 7, 8, 9, 10, 11, 24, 25];

#[derive(Clone, Copy, Debug)]
pub enum Fault {
    /// A plant number in one record.
    Plant(u8, usize, Place),
    /// Several plant numbers in one record, in order; the plant, or any one.
    InOne(&'static [u8], Option<usize>),
    /// Any two of them.
    AnyTwoInOne,
    /// A larger number in an earlier plant and a smaller one in a later plant of the same second.
    TwoPlants(usize, usize),
    /// Faults in two seconds that follow each other.
    TwoSeconds,
    Quarter(Quarter),
    Input(Input, Length),
    Header(Header),
    Block(Block, Place),
    Mixed(Mixed),
}

/// Too few bytes or too many.
#[derive(Clone, Copy, Debug)]
pub enum Input {
    Empty,
    HeaderCut,
    HeaderOnly,
    FirstBlockCut,
    MiddleBlockCut,
    LastBlockCut,
    LastBlockMissing,
    OneByteMore,
    OneBlockMore,
}

#[derive(Clone, Copy, Debug)]
pub enum Header {
    CutAndCheck,
    Check,
    ByteUnderCheck,
    FirstBytes,
    Version,
    /// Owner 8 and no block after the header.
    OwnerAndNoBlock,
    NoSeconds,
    OneSecondTooMany,
    /// One of the spare bytes 7 and 12 to 507.
    Spare(usize),
    AnySpare,
    /// A number from 13 to 17 and the next one.
    WithNext(u8),
    /// A header whose seconds are not those of the blocks.
    Says(i64),
    /// A header with 90,000 seconds, which is sound, over far fewer blocks.
    SaysMost,
}

#[derive(Clone, Copy, Debug)]
pub enum Block {
    CutAndCheck,
    Check,
    SpareBeforeSeconds,
    SpareAfterSeconds,
    UnusedSecond,
    Number,
    Count,
    CheckAndNumber,
    NumberAndCount,
    CountAndSpare,
}

/// A block's fault together with a plant's or with bytes after the last block.
#[derive(Clone, Copy, Debug)]
pub enum Mixed {
    SpareAndPlant,
    PlantThenBlock,
    PlantThenCut,
    PlantThenMore,
    CheckThenMore,
}

const NEXT_TO_EACH_OTHER: [&[u8]; 11] = [
    &[2, 3],
    &[3, 4],
    &[4, 5],
    &[5, 6],
    &[6, 26],
    &[6, 7],
    &[26, 7],
    &[7, 8],
    &[8, 9],
    &[9, 10],
    &[10, 11],
];

/// Two and three kinds off at once whose setpoints aren't 0.
const KINDS_OFF: [&[u8]; 4] = [&[11, 24], &[11, 25], &[24, 25], &[11, 24, 25]];

/// A status that changes against the quarter hour, and states that no second can leave.
#[derive(Clone, Copy, Debug)]
pub enum Quarter {
    OnWithoutFault,
    OnUnderFault,
    /// With bit 3: the one change would be right, the other isn't.
    OneOffOneOn,
    /// Bit 3 counts in the very second only.
    FaultASecondBefore,
    BackAfterFault,
    /// Second 899 or 901.
    OffBesideMultiple(usize),
    OnBesideMultiple(usize),
    /// mFRR off and a call, which has value 0 in its own second; then off, on, or off and called again.
    StuckOff,
    StuckOn,
    StuckCalled,
    /// A fault takes mFRR off while a ramp passes 0.
    RampThroughZero,
}

const QUARTERS: [Quarter; 13] = [
    Quarter::OnWithoutFault,
    Quarter::OnUnderFault,
    Quarter::OneOffOneOn,
    Quarter::FaultASecondBefore,
    Quarter::BackAfterFault,
    Quarter::OffBesideMultiple(899),
    Quarter::OffBesideMultiple(901),
    Quarter::OnBesideMultiple(899),
    Quarter::OnBesideMultiple(901),
    Quarter::StuckOff,
    Quarter::StuckOn,
    Quarter::StuckCalled,
    Quarter::RampThroughZero,
];

/// All cases, in turn.
pub fn cases() -> Vec<Fault> {
    let mut cases = Vec::new();
    for place in PLACES {
        for number in NUMBERS {
            for plant in 0..3 {
                cases.push(Fault::Plant(number, plant, place));
            }
        }
    }
    cases.extend(NEXT_TO_EACH_OTHER.iter().map(|pair| Fault::InOne(pair, None)));
    for plant in 0..3 {
        cases.extend(KINDS_OFF.iter().map(|&kinds| Fault::InOne(kinds, Some(plant))));
    }
    cases.push(Fault::AnyTwoInOne);
    cases.extend([Fault::TwoPlants(0, 1), Fault::TwoPlants(0, 2), Fault::TwoPlants(1, 2)]);
    cases.push(Fault::TwoSeconds);
    cases.extend(QUARTERS.map(Fault::Quarter));
    for input in [Input::Empty, Input::HeaderCut, Input::HeaderOnly, Input::FirstBlockCut] {
        cases.push(Fault::Input(input, Length::Short));
    }
    for length in LENGTHS {
        for input in [
            Input::MiddleBlockCut,
            Input::LastBlockCut,
            Input::LastBlockMissing,
            Input::OneByteMore,
            Input::OneBlockMore,
        ] {
            cases.push(Fault::Input(input, length));
        }
    }
    cases.extend([
        Fault::Header(Header::CutAndCheck),
        Fault::Header(Header::Check),
        Fault::Header(Header::ByteUnderCheck),
        Fault::Header(Header::FirstBytes),
        Fault::Header(Header::Version),
        Fault::Header(Header::OwnerAndNoBlock),
        Fault::Header(Header::NoSeconds),
        Fault::Header(Header::OneSecondTooMany),
        Fault::Header(Header::Spare(7)),
        Fault::Header(Header::Spare(12)),
        Fault::Header(Header::Spare(507)),
        Fault::Header(Header::AnySpare),
        Fault::Header(Header::Says(1)),
        Fault::Header(Header::Says(4)),
        Fault::Header(Header::Says(-1)),
        Fault::Header(Header::Says(-4)),
        Fault::Header(Header::SaysMost),
    ]);
    cases.extend((13..=17).map(|number| Fault::Header(Header::WithNext(number))));
    for place in PLACES {
        for block in [
            Block::Check,
            Block::SpareBeforeSeconds,
            Block::SpareAfterSeconds,
            Block::Number,
            Block::Count,
        ] {
            cases.push(Fault::Block(block, place));
        }
    }
    cases.extend([
        Fault::Block(Block::UnusedSecond, Place::Last),
        Fault::Block(Block::CutAndCheck, Place::Middle),
        Fault::Block(Block::CheckAndNumber, Place::Middle),
        Fault::Block(Block::NumberAndCount, Place::Last),
        Fault::Block(Block::CountAndSpare, Place::First),
        Fault::Mixed(Mixed::SpareAndPlant),
        Fault::Mixed(Mixed::PlantThenBlock),
        Fault::Mixed(Mixed::PlantThenCut),
        Fault::Mixed(Mixed::PlantThenMore),
        Fault::Mixed(Mixed::CheckThenMore),
    ]);
    cases
}

/// The book of the case that is in turn.
pub fn make(turn: u64, owner: u8, random: &mut Random) -> Made {
    let cases = cases();
    let fault = cases[(turn % cases.len() as u64) as usize];
    match fault {
        Fault::Plant(number, plant, place) => {
            let mut seconds = base(owner, place.length(), full_if(number == 10, plant), random);
            let at = second_of(place, number, seconds.len(), random);
            let at = if number == 26 { off_multiples(at) } else { at };
            let way = if place == Place::Late { random.index(9) } else { 3 * place as usize + plant };
            spoil(&mut seconds[at][plant], number, way, at, random);
            let name = format!("broken, {} in {} at the {:?} second", number, PLANTS[plant], place);
            made(name, book_blocks(owner, &seconds).concat(), number, at)
        }
        Fault::InOne(numbers, plant) => {
            let plant = plant.unwrap_or_else(|| random.index(3));
            several(numbers, plant, owner, random)
        }
        Fault::AnyTwoInOne => {
            let first = random.index(NUMBERS.len() - 1);
            let next = random.within(first as i64 + 1, NUMBERS.len() as i64 - 1) as usize;
            let plant = random.index(3);
            several(&[NUMBERS[first], NUMBERS[next]], plant, owner, random)
        }
        Fault::TwoPlants(earlier, later) => {
            let smaller = random.within(2, 8);
            let between = random.within(smaller + 1, 9);
            let larger = random.pick(&[9, 11, 24, 25, 26, between]) as u8;
            let mut seconds = base(owner, random.pick(&LENGTHS), None, random);
            let at = off_multiples(random.within(1, seconds.len() as i64 - 1) as usize);
            let (one, other) = (random.index(9), random.index(9));
            spoil(&mut seconds[at][earlier], larger, one, at, random);
            spoil(&mut seconds[at][later], smaller as u8, other, at, random);
            let name = format!("broken, {} in {}, {} in {}", larger, PLANTS[earlier], smaller, PLANTS[later]);
            made(name, book_blocks(owner, &seconds).concat(), larger, at)
        }
        Fault::TwoSeconds => {
            let mut seconds = base(owner, random.pick(&LENGTHS), None, random);
            let at = random.within(1, seconds.len() as i64 - 2) as usize;
            let (one, other) = (random.index(9), random.index(9));
            let number = random.pick(&[11, 24, 25]);
            spoil(&mut seconds[at][2], number, one, at, random);
            spoil(&mut seconds[at + 1][0], 2, other, at + 1, random);
            let name = format!("broken, {} in B, 2 in U a second later", number);
            made(name, book_blocks(owner, &seconds).concat(), number, at)
        }
        Fault::Quarter(quarter) => of_quarter(quarter, owner, random),
        Fault::Input(input, length) => of_input(input, length, owner, random),
        Fault::Header(header) => of_header(header, owner, random),
        Fault::Block(block, place) => of_block(block, place, owner, random),
        Fault::Mixed(mixed) => of_mixed(mixed, owner, random),
    }
}

/// A book with one record that several numbers apply to, the first of them to be given.
fn several(numbers: &[u8], plant: usize, owner: u8, random: &mut Random) -> Made {
    let place = random.pick(&PLACES);
    let mut seconds = base(owner, place.length(), full_if(numbers.contains(&10), plant), random);
    let latest = numbers.iter().copied().max_by_key(|&number| first_second_for(number)).expect("a number");
    let at = second_of(place, latest, seconds.len(), random);
    let at = if numbers.contains(&26) { off_multiples(at) } else { at };
    for &number in numbers.iter().rev() {
        let way = random.index(9);
        spoil(&mut seconds[at][plant], number, way, at, random);
    }
    let list = numbers.iter().map(u8::to_string).collect::<Vec<_>>().join(" and ");
    let name = format!("broken, {} in {} at the {:?} second", list, PLANTS[plant], place);
    made(name, book_blocks(owner, &seconds).concat(), numbers[0], at)
}

fn made(name: String, bytes: Vec<u8>, number: u8, at: usize) -> Made {
    Made {
        name,
        bytes,
        expected: Some((number, at)),
    }
}

fn full_if(full: bool, plant: usize) -> Option<usize> {
    if full {
        Some(plant)
    } else {
        None
    }
}

/// The seconds of a sound book, all kinds on. With a plant named, that one calls at every second until all eight
/// places are taken, at second 8, and no place is freed before second 901.
fn base(owner: u8, length: Length, full: Option<usize>, random: &mut Random) -> Vec<Second> {
    let count = match length {
        Length::Short => random.within(50, 160),
        Length::Long => random.within(700, 1_100),
    };
    base_of(owner, count as usize, full, random)
}

/// The same with so many seconds.
fn base_of(owner: u8, count: usize, full: Option<usize>, random: &mut Random) -> Vec<Second> {
    let mut tracks: [Track; 3] = array::from_fn(|plant| Track {
        fcr_held: Mover::fixed(random.within(1, 9) * 400),
        deviation: Mover::new(Values::Walk(20, -180, 180), &[1]),
        up: Mover::fixed(random.within(0, 9) * 500),
        down: Mover::fixed(random.within(0, 9) * 500),
        afrr: Mover::new(Values::Walk(600, -5_000, 5_000), &[1, 7]),
        working_point: Mover::fixed(random.within(-9_000, 9_000)),
        calls: if full == Some(plant) { Calls::Every(1, 1) } else { Calls::Once(0) },
        targets: Values::Uniform(90_000, 99_000),
        ends: End::Any,
        errors: Errors::Noise(700),
        ..Track::still()
    });
    seconds(owner, &mut tracks, count, random)
}

/// The first second that can have this number: all places are taken from 9 on, mFRR's setpoint is 0 at second 0, and
/// every status is free there.
fn first_second_for(number: u8) -> usize {
    match number {
        10 => 9,
        25 | 26 => 1,
        _ => 0,
    }
}

/// This second from 1 on, or the one before it where every status is free.
fn off_multiples(second: usize) -> usize {
    if second % 900 == 0 {
        second - 1
    } else {
        second
    }
}

fn second_of(place: Place, number: u8, count: usize, random: &mut Random) -> usize {
    let first = first_second_for(number);
    match place {
        Place::First => first,
        Place::Middle => random.within(first as i64 + 1, count as i64 - 2) as usize,
        Place::Last => count - 1,
        Place::Late if number == 10 => random.within(LATE as i64, (count as i64 - 1).min(900)) as usize,
        Place::Late => random.within(LATE as i64, count as i64 - 1) as usize,
    }
}

/// Gives a sound record of second `now` the fault that has this number, in one of nine ways.
pub(super) fn spoil(record: &mut Record, number: u8, way: usize, now: usize, random: &mut Random) {
    let now = now as i64;
    match number {
        2 => {
            let held = [-1, 1_000_001, i32::MIN][way / 3];
            match way % 3 {
                0 => record.fcr_held = held,
                1 => record.afrr_held_up = held,
                _ => record.afrr_held_down = held,
            }
        }
        3 => record.deviation = [5_001, -5_001, i16::MAX, i16::MIN][way % 4],
        4 => {
            let power = [4_000_001, -4_000_001, i32::MAX, i32::MIN][way / 2 % 4];
            if way % 2 == 0 {
                record.measured = power;
            } else {
                record.working_point = power;
            }
        }
        5 => record.afrr_setpoint = [1_000_001, -1_000_001, i32::MAX, i32::MIN][way % 4],
        6 => record.status = [16, 17, 31, 32, 128, 255][way % 6],
        26 => record.status = 7 & !([1, 2, 4, 7, 3, 5, 6, 1, 2][way]),
        7 => {
            (record.call, record.mfrr_target, record.delivery_end) = [
                (2, 0, 0),
                (0, 1, 0),
                (0, 0, 900),
                (0, -1, 0),
                (0, 0, 1),
                (255, record.mfrr_target, record.delivery_end),
                (0, 1_000, 1_800),
                (0, 0, u32::MAX),
                (2, 1_000, 1_800),
            ][way];
        }
        8 => {
            call(record, now, random);
            record.mfrr_target = [1_000_001, -1_000_001, i32::MAX, i32::MIN][way % 4];
        }
        9 => {
            call(record, now, random);
            let sound = record.delivery_end;
            let below = ((now + 899) / 900 * 900) as u32;
            let above = (((now + 3_600) / 900 + 1) * 900) as u32;
            record.delivery_end = [sound - 1, sound + 1, above, below, above, 0, below, 4_294_966_500, u32::MAX][way];
        }
        10 => call(record, now, random),
        11 => {
            let pairs = [(2, 100), (2, -100), (400, 200), (20, 10), (20, -10), (1_000_000, -5_000)];
            (record.fcr_held, record.deviation) = random.pick(&pairs);
            go_off(record, 1, now);
        }
        24 => {
            record.afrr_setpoint = random.pick(&[1, -1, 1_000_000]);
            go_off(record, 2, now);
        }
        25 => {
            // the running call's value, also where a new one comes
            if way % 2 == 0 {
                call(record, now, random);
            }
            go_off(record, 4, now);
        }
        _ => unreachable!("no number of a plant second that a book can reach"),
    }
}

/// A kind off, by a fault where it may not go off otherwise.
fn go_off(record: &mut Record, kind: u8, now: i64) {
    record.status &= !kind;
    if now % 900 != 0 {
        record.status |= FAULT;
    }
}

/// Takes a kind off from a second on, its setpoint 0; mFRR only from second 0 on, without a call.
fn switch_off(seconds: &mut [Second], plant: usize, kind: usize, from: usize) {
    for (now, second) in seconds.iter_mut().enumerate().skip(from) {
        let record = &mut second[plant];
        match kind {
            0 => record.fcr_held = 0,
            1 => record.afrr_setpoint = 0,
            _ => (record.call, record.mfrr_target, record.delivery_end) = (0, 0, 0),
        }
        record.status &= !(1 << kind);
        if now == from && now % 900 != 0 {
            record.status |= FAULT;
        }
    }
}

fn of_quarter(quarter: Quarter, owner: u8, random: &mut Random) -> Made {
    let (plant, kind) = (random.index(3), random.index(3));
    let bit = 1 << kind;
    let mut seconds = match quarter {
        Quarter::OffBesideMultiple(_) | Quarter::OnBesideMultiple(_) | Quarter::RampThroughZero => {
            base_of(owner, random.within(902, 1_100) as usize, None, random)
        }
        _ => base(owner, random.pick(&LENGTHS), None, random),
    };
    let any = off_multiples(random.within(5, seconds.len() as i64 - 1) as usize);
    let (number, at) = match quarter {
        Quarter::OnWithoutFault | Quarter::OnUnderFault => {
            switch_off(&mut seconds, plant, kind, 0);
            seconds[any][plant].status |= bit;
            if let Quarter::OnUnderFault = quarter {
                seconds[any][plant].status |= FAULT;
            }
            (26, any)
        }
        Quarter::OneOffOneOn => {
            switch_off(&mut seconds, plant, kind, 0);
            let other = (kind + 1 + random.index(2)) % 3;
            seconds[any][plant].status = (7 & !(1 << other)) | FAULT;
            (26, any)
        }
        Quarter::FaultASecondBefore => {
            seconds[any - 1][plant].status |= FAULT;
            seconds[any][plant].status &= !bit;
            (26, any)
        }
        Quarter::BackAfterFault => {
            let kind = kind % 2;
            switch_off(&mut seconds, plant, kind, any - 1 - random.index(4));
            seconds[any][plant].status |= 1 << kind | random.pick(&[0, FAULT]);
            (26, any)
        }
        Quarter::OffBesideMultiple(at) => {
            seconds[at][plant].status &= !bit;
            (26, at)
        }
        Quarter::OnBesideMultiple(at) => {
            switch_off(&mut seconds, plant, kind, 0);
            seconds[at][plant].status |= bit;
            (26, at)
        }
        Quarter::StuckOff | Quarter::StuckOn | Quarter::StuckCalled => {
            switch_off(&mut seconds, plant, 2, 0);
            let before = &mut seconds[any - 1][plant];
            call(before, any as i64 - 1, random);
            before.mfrr_target = random.pick(&[900, -900, 9_000, -1_000_000]);
            let record = &mut seconds[any][plant];
            match quarter {
                Quarter::StuckOn => {
                    record.status |= 4 | random.pick(&[0, FAULT]);
                    (26, any)
                }
                Quarter::StuckCalled => {
                    call(record, any as i64, random);
                    record.mfrr_target = 0;
                    (25, any)
                }
                _ => {
                    record.status |= random.pick(&[0, FAULT]);
                    (25, any)
                }
            }
        }
        Quarter::RampThroughZero => {
            // 100 kW at second 100, then down to -100 in 900 seconds: 0 from 550 to 554
            (seconds[0][plant].mfrr_target, seconds[0][plant].delivery_end) = (900, 900);
            (seconds[100][plant].call, seconds[100][plant].mfrr_target, seconds[100][plant].delivery_end) = (1, -100, 1_800);
            let off = random.within(550, 554) as usize;
            for record in seconds[off..].iter_mut().map(|second| &mut second[plant]) {
                record.status &= !4;
            }
            seconds[off][plant].status |= FAULT;
            (25, 555)
        }
    };
    made(format!("broken, {:?} in {}", quarter, PLANTS[plant]), book_blocks(owner, &seconds).concat(), number, at)
}

/// A sound new call, where there is none yet.
pub(super) fn call(record: &mut Record, now: i64, random: &mut Random) {
    if record.call == 1 {
        return;
    }
    record.call = 1;
    record.mfrr_target = random.within(-9_000, 9_000) as i32;
    let first = (now + 900 + 899) / 900;
    let last = (now + 3_600) / 900;
    record.delivery_end = (random.within(first, last) * 900) as u32;
}

fn of_input(input: Input, length: Length, owner: u8, random: &mut Random) -> Made {
    let seconds = base(owner, length, None, random);
    let count = seconds.len();
    let mut bytes = book_blocks(owner, &seconds).concat();
    let blocks = bytes.len() / LENGTH - 1;
    let inside = random.within(1, 511) as usize;
    let middle = match length {
        Length::Short => random.within(2, blocks as i64 - 1),
        Length::Long => random.within(FIRST_LATE, blocks as i64 - 1),
    } as usize;
    let (size, number, at) = match input {
        Input::Empty => (0, 12, 0),
        Input::HeaderCut => (random.pick(&[1, 511, inside]), 12, 0),
        Input::HeaderOnly => (LENGTH, 12, 0),
        Input::FirstBlockCut => (LENGTH + random.pick(&[1, 511, inside]), 12, 0),
        Input::MiddleBlockCut => (middle * LENGTH + inside, 12, 4 * (middle - 1)),
        Input::LastBlockCut => (blocks * LENGTH + 511, 12, 4 * (blocks - 1)),
        Input::LastBlockMissing => (blocks * LENGTH, 12, 4 * (blocks - 1)),
        Input::OneByteMore => (bytes.len() + 1, 21, count),
        Input::OneBlockMore => (bytes.len() + LENGTH, 21, count),
    };
    let filling = random.pick(&[0, 255, 10]);
    bytes.resize(size, filling);
    made(format!("broken, {:?}, {:?} book", input, length), bytes, number, at)
}

/// Gives a header the fault that has this number; the check is renewed after all but 13.
fn spoil_header(header: &mut [u8], number: u8, random: &mut Random) {
    match number {
        14 => header[random.index(4)] ^= 1 << random.index(8),
        15 => header[4] = random.pick(&[0, 2, 3, 255]),
        16 => header[6] = random.pick(&[8, 9, 16, 128, 255]),
        17 => header[8..12].copy_from_slice(&random.pick(&[0, 90_002, 1 << 31, u32::MAX]).to_le_bytes()),
        18 => {
            let between = random.within(13, 506) as usize;
            header[random.pick(&[7, 12, 507, between])] = random.within(1, 255) as u8;
        }
        _ => {}
    }
    seal(header);
    if number == 13 {
        header[508 + random.index(4)] ^= 1 << random.index(8);
    }
}

fn of_header(fault: Header, owner: u8, random: &mut Random) -> Made {
    let seconds = base(owner, Length::Short, None, random);
    let count = seconds.len() as i64;
    let left = count % 4;
    let full = count - left;
    let mut blocks = book_blocks(owner, &seconds);
    let header = &mut blocks[0];
    let set_seconds = |header: &mut Vec<u8>, seconds: u32| {
        header[8..12].copy_from_slice(&seconds.to_le_bytes());
        seal(header);
    };
    let mut expected = None;
    let number = match fault {
        Header::CutAndCheck => {
            spoil_header(header, 13, random);
            12
        }
        Header::Check => {
            spoil_header(header, 13, random);
            13
        }
        Header::ByteUnderCheck => {
            header[random.within(0, 507) as usize] ^= 1 << random.index(8);
            13
        }
        Header::FirstBytes => {
            header[3] = b'V';
            seal(header);
            14
        }
        Header::Version => {
            header[5] = 1;
            seal(header);
            15
        }
        Header::OwnerAndNoBlock => {
            header[6] = 8;
            seal(header);
            16
        }
        Header::NoSeconds => {
            set_seconds(header, 0);
            17
        }
        Header::OneSecondTooMany => {
            set_seconds(header, 90_001);
            17
        }
        Header::Spare(at) => {
            header[at] = random.within(1, 255) as u8;
            seal(header);
            18
        }
        Header::AnySpare => {
            spoil_header(header, 18, random);
            18
        }
        Header::WithNext(number) => {
            spoil_header(header, number + 1, random);
            spoil_header(header, number, random);
            number
        }
        Header::SaysMost => {
            set_seconds(header, 90_000);
            expected = Some(if left == 0 { (12, count) } else { (20, full) });
            0
        }
        Header::Says(more) => {
            set_seconds(header, (count + more) as u32);
            expected = Some(match more {
                4 if left == 0 => (12, count),
                4 => (20, full),
                1 if left == 0 => (12, count),
                1 => (20, full),
                -1 if left == 1 => (21, full),
                -1 if left == 0 => (20, count - 4),
                -1 => (20, full),
                _ if left == 0 => (21, count - 4),
                _ => (20, full - 4),
            });
            0
        }
    };
    let mut bytes = blocks.concat();
    match fault {
        Header::CutAndCheck => bytes.truncate(random.within(1, 511) as usize),
        Header::OwnerAndNoBlock => bytes.truncate(LENGTH),
        _ => {}
    }
    let (number, at) = expected.unwrap_or((number, 0));
    made(format!("broken, header, {:?}", fault), bytes, number, at as usize)
}

/// Gives block `number` (from 1) the fault, another one at each place; the check is renewed but where it is the fault.
pub(super) fn spoil_block(block: &mut [u8], number: usize, fault: Block, place: Place, random: &mut Random) {
    let count = block[4];
    let number = number as u32;
    let by_place = |first: usize, middle: i64, last: usize| match place {
        Place::First => first,
        Place::Middle | Place::Late => middle as usize,
        Place::Last => last,
    };
    let spare = random.within(1, 255) as u8;
    match fault {
        Block::Check | Block::CutAndCheck => block[508 + random.index(4)] ^= 1 << random.index(8),
        Block::SpareBeforeSeconds => block[by_place(5, random.within(5, 15), 15)] = spare,
        Block::SpareAfterSeconds => block[by_place(448, random.within(448, 507), 507)] = spare,
        Block::UnusedSecond => block[16 + 108 * count as usize] = spare,
        Block::Number | Block::CheckAndNumber | Block::NumberAndCount => {
            let other = by_place(number as usize + 1, number as i64 - 1, number as usize + (1 << 24));
            block[0..4].copy_from_slice(&(other as u32).to_le_bytes());
        }
        Block::Count | Block::CountAndSpare => {
            block[4] = by_place(3, 5, if count < 4 { count as usize + 1 } else { 0 }) as u8;
        }
    }
    match fault {
        Block::NumberAndCount => block[4] = count ^ 1,
        Block::CountAndSpare => block[5 + random.index(11)] = spare,
        _ => {}
    }
    match fault {
        Block::Check | Block::CutAndCheck => {}
        _ => seal(block),
    }
    if let Block::CheckAndNumber = fault {
        block[508] ^= 1;
    }
}

fn of_block(fault: Block, place: Place, owner: u8, random: &mut Random) -> Made {
    let mut seconds = base(owner, place.length(), None, random);
    if let Block::UnusedSecond = fault {
        while seconds.len() % 4 == 0 {
            seconds.pop();
        }
    }
    let mut blocks = book_blocks(owner, &seconds);
    let last = blocks.len() - 1;
    let number = match place {
        Place::First => 1,
        Place::Middle => random.within(2, last as i64 - 1) as usize,
        Place::Last => last,
        Place::Late => random.within(FIRST_LATE, last as i64) as usize,
    };
    spoil_block(&mut blocks[number], number, fault, place, random);
    let mut bytes = blocks.concat();
    let refusal = match fault {
        Block::CutAndCheck => {
            bytes.truncate(number * LENGTH + random.within(1, 511) as usize);
            12
        }
        Block::Check | Block::CheckAndNumber => 13,
        Block::SpareBeforeSeconds | Block::SpareAfterSeconds | Block::UnusedSecond => 18,
        Block::Number | Block::NumberAndCount => 19,
        Block::Count | Block::CountAndSpare => 20,
    };
    made(format!("broken, {:?} block, {:?}", place, fault), bytes, refusal, 4 * (number - 1))
}

fn of_mixed(mixed: Mixed, owner: u8, random: &mut Random) -> Made {
    let mut seconds = base(owner, random.pick(&LENGTHS), None, random);
    let count = seconds.len();
    let number = random.within(2, (count as i64 + 3) / 4 - 1) as usize;
    let first = 4 * (number - 1);
    let at = match mixed {
        Mixed::SpareAndPlant => first,
        Mixed::PlantThenBlock | Mixed::PlantThenCut => first + random.index(4),
        Mixed::PlantThenMore => count - 1,
        Mixed::CheckThenMore => 0,
    };
    let refusal = random.pick(&[2, 3, 4, 5, 6, 7, 8, 9, 11, 24, 25]);
    if !matches!(mixed, Mixed::CheckThenMore) {
        let (plant, way) = (random.index(3), random.index(9));
        spoil(&mut seconds[at][plant], refusal, way, at, random);
    }
    let mut blocks = book_blocks(owner, &seconds);
    let last = blocks.len() - 1;
    let name = format!("broken, {:?}", mixed);
    match mixed {
        Mixed::SpareAndPlant => {
            spoil_block(&mut blocks[number], number, Block::SpareBeforeSeconds, Place::Middle, random);
            made(name, blocks.concat(), 18, first)
        }
        Mixed::PlantThenBlock => {
            spoil_block(&mut blocks[number + 1], number + 1, Block::Check, Place::Middle, random);
            made(name, blocks.concat(), refusal, at)
        }
        Mixed::PlantThenCut => {
            let mut bytes = blocks.concat();
            bytes.truncate((number + 1) * LENGTH + random.index(LENGTH));
            made(name, bytes, refusal, at)
        }
        Mixed::PlantThenMore => {
            blocks.push(vec![0; random.within(1, 600) as usize]);
            made(name, blocks.concat(), refusal, at)
        }
        Mixed::CheckThenMore => {
            spoil_block(&mut blocks[last], last, Block::Check, Place::Middle, random);
            blocks.push(vec![0; random.within(1, 600) as usize]);
            made(name, blocks.concat(), 13, 4 * (last - 1))
        }
    }
}

#[cfg(test)]
mod tests {
    use super::*;
    use crate::line::refusal_line;
    use crate::line::second_line;
    use crate::program::output_of;
    use std::collections::BTreeSet;

    /// Every case is refused with the number and at the second that it was made for; and each number that does not
    /// stand in the header has a case after `LATE` seconds.
    #[test]
    fn cases_are_refused_as_meant() {
        let mut late = BTreeSet::new();
        for round in 0..16 {
            for turn in 0..cases().len() as u64 {
                let made = make(turn, (round % 8) as u8, &mut Random::new(round * 1_000 + turn));
                let output = output_of(&made.bytes, second_line);
                let (number, at) = made.expected.expect("a broken book says why");
                assert!(
                    output.ends_with(&refusal_line(number, at)),
                    "{}: {:?}, not {} at {}",
                    made.name,
                    output.lines().last(),
                    number,
                    at
                );
                assert_eq!(output.lines().count(), at + 1, "{}", made.name);
                if at >= LATE && round == 0 {
                    late.insert(number);
                }
            }
        }
        assert!(late.iter().eq(&[2, 3, 4, 5, 6, 7, 8, 9, 10, 11, 12, 13, 18, 19, 20, 21, 24, 25, 26]), "{:?}", late);
    }
}

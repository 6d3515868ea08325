//! What a plant does second by second in a made book. Every second made here is accepted, unless a storm is told
//! to ask for a ninth leftover: kinds go on and off at quarter hours, or off at a fault, and those off have setpoint 0;
//! calls follow rule 9, powers stay in their ranges.

use super::random::Random;
use super::Second;
use crate::book::{unit_values, Book};
use crate::fcr;
use crate::mfrr::PLACES;
use crate::plant::{row, tolerances, Accepted, Plant, FAULT};
use crate::power::{Band, Limits};
use crate::record::Record;

/// Where a figure's next value comes from.
#[derive(Clone, Copy)]
pub enum Values {
    Fixed(i64),
    Choice(&'static [i64]),
    Uniform(i64, i64),
    /// A power or one beside it, or 0 or one beside it.
    Near(i64),
    /// A step of at most so much up or down, never 0, between two ends.
    Walk(i64, i64, i64),
}

fn near(power: i64) -> [i64; 6] {
    [0, power - 1, power, power + 1, -1, 1]
}

/// A figure that takes a new value every so many seconds.
#[derive(Clone)]
pub struct Mover {
    values: Values,
    gaps: Vec<i64>,
    value: i64,
    next: i64,
}

impl Mover {
    pub fn new(values: Values, gaps: impl Into<Vec<i64>>) -> Mover {
        Mover {
            values,
            gaps: gaps.into(),
            value: 0,
            next: 0,
        }
    }

    pub fn fixed(value: i64) -> Mover {
        Mover::new(Values::Fixed(value), &[1_000_000])
    }

    pub fn starting_at(mut self, value: i64) -> Mover {
        self.value = value;
        self
    }

    /// The first new value comes at this second; until then the one that it starts at stays.
    pub fn moving_from(mut self, second: i64) -> Mover {
        self.next = second;
        self
    }

    fn at(&mut self, now: i64, random: &mut Random) -> i64 {
        if now >= self.next {
            self.next = now + random.pick(&self.gaps);
            self.value = match self.values {
                Values::Fixed(value) => value,
                Values::Choice(list) => random.pick(list),
                Values::Uniform(lowest, highest) => random.within(lowest, highest),
                Values::Near(power) => random.pick(&near(power)),
                Values::Walk(most, lowest, highest) => {
                    let step = random.within(1, most);
                    let up = random.once_in(2);
                    let down_only = self.value + step > highest;
                    let up_only = self.value - step < lowest;
                    if (up && !down_only) || up_only {
                        self.value + step
                    } else {
                        self.value - step
                    }
                }
            };
        }
        self.value
    }
}

/// When a new call comes.
#[derive(Clone, Copy, PartialEq)]
pub enum Calls {
    Never,
    /// One at this second.
    Once(i64),
    /// At the edges of the running call: around its start, j + 900, D and D + 900, and after it.
    Edges,
    /// After so many seconds, from .. to, as long as there is a place.
    Every(i64, i64),
    /// Like `Every`, and then for a ninth leftover.
    Ninth(i64, i64, Ninth),
    /// As `planned` has them, as long as there is a place.
    Planned,
}

/// When a storm asks for a ninth leftover.
#[derive(Clone, Copy, PartialEq)]
pub enum Ninth {
    /// As soon as all places are taken.
    AtOnce,
    /// At the last second of a leftover, which still has its place; one second later the call would be accepted.
    AtLastSecond,
}

/// Which delivery end a call takes.
#[derive(Clone, Copy)]
pub enum End {
    First,
    Last,
    Any,
    /// The last for a call on a resting signal, else the first: delivering lasts long and is interrupted.
    LastThenFirst,
}

/// Whether a kind is on, from each quarter hour on. mFRR is on wherever its signal would not stay 0 until the next one.
#[derive(Clone, Copy, PartialEq)]
pub enum Switch {
    On,
    Off,
    /// On at every quarter hour; and a fault can take it off.
    Failing,
    /// On in some quarter hours; and a fault can take it off.
    Sometimes,
}

/// When a fault takes a kind off that can fail. Bit 3 comes and goes alone, too, unless faults never come.
#[derive(Clone, Copy, PartialEq)]
pub enum Faults {
    Never,
    /// Bit 3 comes and goes, and takes no kind off.
    BitAlone,
    /// Once in so many seconds.
    Anywhere(u64),
    /// In the last seconds of a quarter hour, so that the kind is soon on again.
    BeforeQuarters,
}

/// What the error is.
#[derive(Clone, Copy)]
pub enum Errors {
    Noise(i64),
    /// 0, ±1, about T/2, T - 1, T, T + 1, 2 T, in either direction.
    AtBands,
    /// Measured values drawn without regard to the setpoints.
    Measured(Values),
}

#[derive(Clone)]
pub struct Track {
    pub fcr_held: Mover,
    pub deviation: Mover,
    pub up: Mover,
    pub down: Mover,
    pub afrr: Mover,
    pub working_point: Mover,
    pub calls: Calls,
    pub targets: Values,
    pub ends: End,
    pub switches: [Switch; 3],
    pub faults: Faults,
    pub errors: Errors,
    /// The first second that a call may come at.
    pub next_call: i64,
    /// Which edge is in turn, for `Calls::Edges`.
    pub edge: usize,
    /// Seconds and delivery ends, for `Calls::Planned`.
    pub planned: Vec<(i64, i64)>,
    pub on: [bool; 3],
    /// Bit 3.
    pub fault: bool,
}

const LARGEST: i64 = 4_000_000;

/// How many edges of a call there are; the first nine are exact ones.
const EDGES: usize = 12;
pub const EXACT_EDGES: usize = 9;

impl Track {
    /// All kinds on, nothing moving.
    pub fn still() -> Track {
        Track {
            fcr_held: Mover::fixed(0),
            deviation: Mover::fixed(0),
            up: Mover::fixed(0),
            down: Mover::fixed(0),
            afrr: Mover::fixed(0),
            working_point: Mover::fixed(0),
            calls: Calls::Never,
            targets: Values::Fixed(0),
            ends: End::Any,
            switches: [Switch::On; 3],
            faults: Faults::Never,
            errors: Errors::Noise(0),
            next_call: 0,
            edge: 0,
            planned: Vec::new(),
            on: [true; 3],
            fault: false,
        }
    }

    /// The delivery end that is planned for a call at `now`.
    fn planned_end(&self, now: i64) -> Option<i64> {
        self.planned.iter().find(|&&(at, _)| at == now).map(|&(_, end)| end)
    }

    fn delivery_end(&self, now: i64, plant: &Plant, random: &mut Random) -> i64 {
        if let Some(end) = self.planned_end(now) {
            return end;
        }
        let first = (now + 900 + 899) / 900 * 900;
        let last = (now + 3_600) / 900 * 900;
        match self.ends {
            End::First => first,
            End::Last => last,
            End::Any => random.within(first / 900, last / 900) * 900,
            End::LastThenFirst if plant.mfrr.resting(now) => last,
            End::LastThenFirst => first,
        }
    }

    fn calls_now(&mut self, now: i64, plant: &Plant) -> bool {
        let signal = &plant.mfrr;
        let full = !signal.resting(now) && signal.counting(now).count() == PLACES;
        match self.calls {
            Calls::Never => false,
            Calls::Once(at) => now == at,
            Calls::Edges | Calls::Every(..) => now >= self.next_call && !full,
            Calls::Planned => self.planned_end(now).is_some() && !full,
            Calls::Ninth(_, _, ninth) => {
                if now < self.next_call {
                    return false;
                }
                match ninth {
                    Ninth::AtOnce => true,
                    Ninth::AtLastSecond => !full || signal.counting(now).any(|leftover| leftover.last == now),
                }
            }
        }
    }

    /// Decides when the next call comes, after one at `now` with delivery end `end`.
    fn plan(&mut self, now: i64, end: i64, random: &mut Random) {
        self.next_call = match self.calls {
            Calls::Every(least, most) | Calls::Ninth(least, most, _) => now + random.within(least, most),
            Calls::Edges => match self.edge % EDGES {
                0 => now + 899,
                1 => now + 900,
                2 => now + 901,
                3 => end - 1,
                4 => end,
                5 => end + 1,
                6 => end + 899,
                7 => end + 900,
                8 => end + 901,
                9 => now + 1,
                10 => now + random.within(2, 898),
                _ => end + random.within(2, 898),
            }
            .max(now + 1),
            Calls::Never | Calls::Once(_) | Calls::Planned => i64::MAX,
        };
        self.edge += 5;
    }

    fn target(&mut self, now: i64, plant: &Plant, random: &mut Random) -> i64 {
        match self.targets {
            Values::Fixed(value) => value,
            Values::Choice(list) => random.pick(list),
            Values::Uniform(lowest, highest) => random.within(lowest, highest),
            Values::Near(power) => random.pick(&near(power)),
            Values::Walk(most, lowest, highest) => {
                // near what the signal gives now
                (plant.mfrr.setpoint(now) + random.within(-most, most)).clamp(lowest, highest)
            }
        }
    }

    /// Decides which kinds are on at `now`, and bit 3.
    fn switch(&mut self, now: i64, plant: &Plant, random: &mut Random) {
        if self.faults != Faults::Never && random.once_in(40) {
            self.fault = !self.fault;
        }
        if now % 900 == 0 {
            for kind in 0..3 {
                self.on[kind] = match self.switches[kind] {
                    Switch::On | Switch::Failing => true,
                    Switch::Off => false,
                    Switch::Sometimes => random.once_in(2),
                };
            }
            self.on[2] |= !plant.mfrr.stays_zero(now, 900);
            return;
        }
        let comes = match self.faults {
            Faults::Never | Faults::BitAlone => false,
            Faults::Anywhere(often) => random.once_in(often),
            Faults::BeforeQuarters => now % 900 >= 880 && random.once_in(5),
        };
        let can_fail = |kind: &usize| {
            self.on[*kind]
                && matches!(self.switches[*kind], Switch::Failing | Switch::Sometimes)
                && (*kind != 2 || plant.mfrr.stays_zero(now, 900 - now % 900))
        };
        let kinds: Vec<usize> = if comes { (0..3).filter(can_fail).collect() } else { Vec::new() };
        if !kinds.is_empty() {
            self.on[random.pick(&kinds)] = false;
            self.fault = true;
        }
    }

    /// Takes the setpoints of FCR and aFRR back to 0 where they are off.
    fn hold_at_zero(&self, record: &mut Record, random: &mut Random) {
        if !self.on[0] && fcr::setpoint(record.deviation as i64, record.fcr_held as i64) != 0 {
            if random.once_in(2) {
                record.fcr_held = 0;
            } else {
                record.deviation = record.deviation.clamp(-9, 9);
            }
        }
        if !self.on[1] {
            record.afrr_setpoint = 0;
        }
    }

    /// Gives the record a new call, unless mFRR is off and its signal would not stay 0 until the next quarter hour.
    fn call(&mut self, record: &mut Record, now: i64, plant: &Plant, random: &mut Random) {
        let end = self.delivery_end(now, plant, random);
        let target = self.target(now, plant, random);
        if !self.on[2] {
            let called = plant.mfrr.called(now, target, end, &plant.sheet);
            if !called.is_ok_and(|signal| signal.stays_zero(now, 900 - now % 900)) {
                return;
            }
        }
        record.call = 1;
        record.mfrr_target = target as i32;
        record.delivery_end = end as u32;
        self.plan(now, end, random);
    }

    fn status(&self) -> u8 {
        let kinds: u8 = (0..3).map(|kind| (self.on[kind] as u8) << kind).sum();
        kinds + if self.fault { FAULT } else { 0 }
    }

    /// The plant's record at its next second, all but the measured value.
    fn record(&mut self, plant: &Plant, random: &mut Random) -> Record {
        let now = plant.seconds() as i64;
        let mut record = Record {
            fcr_held: self.fcr_held.at(now, random) as i32,
            deviation: self.deviation.at(now, random) as i16,
            afrr_held_up: self.up.at(now, random) as i32,
            afrr_held_down: self.down.at(now, random) as i32,
            afrr_setpoint: self.afrr.at(now, random) as i32,
            working_point: self.working_point.at(now, random) as i32,
            ..Record::default()
        };
        self.switch(now, plant, random);
        self.hold_at_zero(&mut record, random);
        if self.calls_now(now, plant) {
            self.call(&mut record, now, plant, random);
        }
        record.status = self.status();
        record
    }

    /// The error wanted, from the tolerances in the two directions.
    fn error(&self, above: i64, below: i64, random: &mut Random) -> i64 {
        match self.errors {
            Errors::Noise(most) => random.within(-most, most),
            Errors::Measured(_) => 0,
            Errors::AtBands => {
                let up = random.once_in(2);
                let total = if up { above } else { below };
                let magnitude = match random.index(10) {
                    0 => 0,
                    1 => 1,
                    2 => 2,
                    3 => random.within(0, total),
                    4 => total / 2,
                    5 => (total - 1).max(0),
                    6 => total,
                    7 => total + 1,
                    8 => 2 * total,
                    _ => random.within(0, 3 * total + 3),
                };
                if up {
                    magnitude
                } else {
                    -magnitude
                }
            }
        }
    }

    /// Fills in a measured value; `added` are the unit's values that come to a pool.
    fn measure(&mut self, record: &mut Record, plant: &mut Plant, added: i64, random: &mut Random) {
        if let Errors::Measured(values) = self.errors {
            record.measured = match values {
                Values::Choice(list) => random.pick(list),
                Values::Uniform(lowest, highest) => random.within(lowest, highest),
                Values::Fixed(value) => value,
                Values::Near(..) | Values::Walk(..) => 0,
            } as i32;
            return;
        }
        let Ok(accepted) = plant.consider(&record.write()) else {
            return;
        };
        let (on, setpoints) = (accepted.on, accepted.setpoints);
        let limits = limits_of(plant, accepted);
        let mut bands = [Band::default(); 3];
        let mut wanted = record.working_point as i64 - added;
        for kind in 0..3 {
            if on[kind] {
                bands[kind] = limits[kind].published();
                wanted += setpoints[kind];
            }
        }
        let above = tolerances(1, on, setpoints, bands).iter().sum();
        let below = tolerances(-1, on, setpoints, bands).iter().sum();
        let measured = wanted + self.error(above, below, random);
        record.measured = measured.clamp(-LARGEST, LARGEST) as i32;
    }
}

/// The limits that an accepted second would have; the plant is as before afterwards.
fn limits_of(plant: &mut Plant, accepted: Accepted) -> [Limits; 3] {
    let (status, carried, signal) = (plant.status, plant.afrr_limits, plant.mfrr.clone());
    let limits = plant.take(accepted);
    plant.status = status;
    plant.fcr.pop();
    plant.afrr.pop();
    plant.afrr_limits = carried;
    plant.mfrr = signal;
    limits
}

/// The seconds of a book under the default sheet, until one would be refused (which is then the last) or there are `count`.
pub fn seconds(owner: u8, tracks: &mut [Track; 3], count: usize, random: &mut Random) -> Vec<Second> {
    seconds_from(Book::default(), owner, tracks, count, random)
}

/// The same from an open book on.
pub fn seconds_from(mut book: Book, owner: u8, tracks: &mut [Track; 3], count: usize, random: &mut Random) -> Vec<Second> {
    let mut seconds = Vec::new();
    while seconds.len() < count {
        let [unit_track, a_track, b_track] = tracks;
        let mut unit = unit_track.record(&book.unit, random);
        unit_track.measure(&mut unit, &mut book.unit, 0, random);
        let mut a = a_track.record(&book.a, random);
        let mut b = b_track.record(&book.b, random);
        let mut values = [0, 0];
        if let Ok(accepted) = book.unit.consider(&unit.write()) {
            let (measured, point) = (unit.measured as i64, unit.working_point as i64);
            let (on, setpoints) = (accepted.on, accepted.setpoints);
            let limits = limits_of(&mut book.unit, accepted);
            let row = row(measured, point, on, setpoints, limits);
            values = [unit_values(&row, owner, 0), unit_values(&row, owner, 1)];
        }
        a_track.measure(&mut a, &mut book.a, values[0], random);
        b_track.measure(&mut b, &mut book.b, values[1], random);
        let second = [unit, a, b];
        seconds.push(second);
        if book.second(owner, &super::second_bytes(&second)).is_err() {
            break;
        }
    }
    seconds
}

//! Which kind was short: the seconds in which a kind's actual value lies outside its published band.

use crate::line::NAMES;
use crate::plant::{Kind, Row};
use crate::program::Form;

const KINDS: [&str; 3] = ["FCR", "aFRR", "mFRR"];

/// How far an actual value lies outside its band, "ends included".
#[derive(Clone, Copy, Debug, PartialEq)]
pub enum Outside {
    Below(i64),
    Above(i64),
}

pub fn outside(kind: &Kind) -> Option<Outside> {
    if kind.actual < kind.band.low {
        Some(Outside::Below(kind.band.low - kind.actual))
    } else if kind.actual > kind.band.high {
        Some(Outside::Above(kind.actual - kind.band.high))
    } else {
        None
    }
}

/// Seconds and kW-seconds on one side of a kind's bands.
#[derive(Clone, Copy, Debug, Default, PartialEq)]
pub struct Side {
    pub seconds: u64,
    pub kw_seconds: i64,
}

impl Side {
    fn add(&mut self, kw: i64) {
        self.seconds += 1;
        self.kw_seconds += kw;
    }
}

#[derive(Clone, Copy, Debug, Default, PartialEq)]
pub struct Count {
    pub below: Side,
    pub above: Side,
}

/// The counts of each plant and kind over the accepted seconds.
#[derive(Clone, Debug, Default)]
pub struct Short {
    pub counts: [[Count; 3]; 3],
}

impl Form for Short {
    /// `1020 U aFRR below 512`, a line for each plant and kind outside its band.
    fn of_second(&mut self, second: usize, rows: &[Row; 3]) -> String {
        let mut lines = String::new();
        for (plant, row) in rows.iter().enumerate() {
            for (place, kind) in row.kinds.iter().enumerate() {
                let count = &mut self.counts[plant][place];
                let (side, kw) = match outside(kind) {
                    None => continue,
                    Some(Outside::Below(kw)) => {
                        count.below.add(kw);
                        ("below", kw)
                    }
                    Some(Outside::Above(kw)) => {
                        count.above.add(kw);
                        ("above", kw)
                    }
                };
                lines += &format!("{} {} {} {} {}\n", second, NAMES[plant], KINDS[place], side, kw);
            }
        }
        lines
    }

    /// `U FCR below 0 0 above 0 0`, nine lines.
    fn before_last(&self) -> String {
        let mut lines = String::new();
        for (plant, counts) in self.counts.iter().enumerate() {
            for (place, Count { below, above }) in counts.iter().enumerate() {
                lines += &format!(
                    "{} {} below {} {} above {} {}\n",
                    NAMES[plant], KINDS[place], below.seconds, below.kw_seconds, above.seconds, above.kw_seconds
                );
            }
        }
        lines
    }
}

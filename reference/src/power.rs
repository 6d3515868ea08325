//! "Limits are carried ... so that no division is lost": as exact fractions, so "the carried unit must still lose nothing for any
//! sheet" (document 02, W9) is seen to by having none.

use std::cmp::Ordering;
use std::ops::{Add, Sub};

/// A number of kW, exact and in lowest terms. The lower parts of a kind's limits divide 100 × w for FCR, 100 × (300 - q) for aFRR
/// and 100 for mFRR, at most 29,900, and its limits are below 2 × 10^7, so that all products here stay in 64 bits.
#[derive(Clone, Copy, Debug, PartialEq, Eq)]
pub struct Ratio {
    over: i64,
    under: i64,
}

fn divisor(mut one: i64, mut other: i64) -> i64 {
    while other != 0 {
        (one, other) = (other, one % other);
    }
    one.abs()
}

impl Ratio {
    /// `over` / `under`, `under` above 0.
    pub fn new(over: i64, under: i64) -> Ratio {
        let divisor = divisor(under, over);
        Ratio {
            over: over / divisor,
            under: under / divisor,
        }
    }

    /// The largest whole number that isn't above it.
    pub fn down(self) -> i64 {
        self.over.div_euclid(self.under)
    }

    /// The smallest whole number that isn't below it.
    pub fn up(self) -> i64 {
        -(-self.over).div_euclid(self.under)
    }

    /// So many times it.
    pub fn times(self, number: i64) -> Ratio {
        Ratio::new(self.over * number, self.under)
    }
}

impl Default for Ratio {
    fn default() -> Ratio {
        Ratio::from(0)
    }
}

impl From<i64> for Ratio {
    fn from(whole: i64) -> Ratio {
        Ratio { over: whole, under: 1 }
    }
}

impl Add for Ratio {
    type Output = Ratio;

    fn add(self, other: Ratio) -> Ratio {
        let both = self.under / divisor(self.under, other.under) * other.under;
        Ratio::new(self.over * (both / self.under) + other.over * (both / other.under), both)
    }
}

impl Sub for Ratio {
    type Output = Ratio;

    fn sub(self, other: Ratio) -> Ratio {
        self + other.times(-1)
    }
}

impl Ord for Ratio {
    fn cmp(&self, other: &Ratio) -> Ordering {
        (self.over * other.under).cmp(&(other.over * self.under))
    }
}

impl PartialOrd for Ratio {
    fn partial_cmp(&self, other: &Ratio) -> Option<Ordering> {
        Some(self.cmp(other))
    }
}

/// Two limits.
#[derive(Clone, Copy, Debug, Default, PartialEq)]
pub struct Limits {
    pub low: Ratio,
    pub high: Ratio,
}

/// A published band in whole kW.
#[derive(Clone, Copy, Debug, Default, PartialEq)]
pub struct Band {
    pub low: i64,
    pub high: i64,
}

impl Limits {
    /// "The published band is whole kW, rounded inward": the upper limit down, the lower one up.
    pub fn published(self) -> Band {
        Band {
            low: self.low.up(),
            high: self.high.down(),
        }
    }
}

/// A setpoint of a past second. `setpoints[j]` is that of second j, counted from the first closed book on; "before second 0
/// all setpoints ... are 0".
pub fn setpoint_at(setpoints: &[i64], second: i64) -> i64 {
    if second < 0 {
        0
    } else {
        setpoints[second as usize]
    }
}

//! Frequency meters with binary32 output (document 02, W6; 002 allows the frequency or its deviation): which of up to
//! four meters counts, and its deviation in whole mHz. All of it in whole numbers, from the bits.

use crate::program::next_bytes;
use std::cmp::Ordering;
use std::io::{self, Read, Write};

/// "Up to four meters serve a plant."
const MOST: usize = 4;
/// Nominal frequency in Hz.
const NOMINAL: i128 = 50;

/// What a meter sends: "either the frequency or the deviation, both in Hz as binary32", here as bits, or that it failed.
#[derive(Clone, Copy, Debug, PartialEq)]
pub enum Reading {
    Frequency(u32),
    Deviation(u32),
    Failed,
}

/// A reading and the bits of "the meter's stated accuracy in Hz, also binary32".
#[derive(Clone, Copy, Debug, PartialEq)]
pub struct Meter {
    pub reading: Reading,
    pub accuracy: u32,
}

/// The number whole × 2^power; |whole| is below 2^25.
#[derive(Clone, Copy, Debug)]
pub struct Exact {
    pub whole: i128,
    pub power: i32,
}

impl Exact {
    pub fn of(whole: i128) -> Exact {
        Exact { whole, power: 0 }
    }

    /// Compares as numbers.
    pub fn compared(self, other: Exact) -> Ordering {
        if self.power < other.power {
            return other.compared(self).reverse();
        }
        let apart = self.power - other.power;
        if apart > 100 && self.whole != 0 {
            return self.whole.cmp(&0); // its size is above 2^100 × 2^other.power, so above any other
        }
        (self.whole << apart.min(100)).cmp(&other.whole)
    }

    /// Both ends included.
    pub fn lies_within(self, low: i128, high: i128) -> bool {
        self.compared(Exact::of(low)) != Ordering::Less && self.compared(Exact::of(high)) != Ordering::Greater
    }

    /// A frequency from 45 to 55 less 50: its power is -18, as that of all numbers from 32 to 64.
    fn less_nominal(self) -> Exact {
        Exact {
            whole: self.whole - (NOMINAL << self.power.unsigned_abs()),
            power: self.power,
        }
    }
}

/// The exact value of a binary32 number; none for an infinity or NaN.
pub fn exact(bits: u32) -> Option<Exact> {
    let fraction = (bits & 0x7f_ffff) as i128;
    let (size, power) = match bits >> 23 & 0xff {
        0xff => return None,
        0 => (fraction, -149),
        exponent => (fraction + 0x80_0000, exponent as i32 - 150),
    };
    let negative = bits >> 31 == 1;
    Some(Exact {
        whole: if negative { -size } else { size },
        power,
    })
}

/// A usable meter's accuracy and deviation in Hz.
#[derive(Clone, Copy, Debug)]
pub struct Usable {
    pub accuracy: Exact,
    pub deviation: Exact,
}

/// "Usable means: not failed, finite, accuracy finite and above 0, frequency from 45 to 55 or deviation from -5 to 5."
pub fn usable(meter: &Meter) -> Option<Usable> {
    let accuracy = exact(meter.accuracy)?;
    let deviation = match meter.reading {
        Reading::Frequency(bits) => exact(bits).filter(|value| value.lies_within(45, 55))?.less_nominal(),
        Reading::Deviation(bits) => exact(bits).filter(|value| value.lies_within(-5, 5))?,
        Reading::Failed => return None,
    };
    (accuracy.whole > 0).then_some(Usable { accuracy, deviation })
}

/// number / 2^power as a whole number, "the nearest, ties to the even one", for |number| below 2^40.
pub fn nearest_even(number: i128, power: u32) -> i128 {
    if power > 100 {
        return 0; // less than a half
    }
    let one = 1 << power;
    let below = number.div_euclid(one);
    match (2 * number.rem_euclid(one)).cmp(&one) {
        Ordering::Less => below,
        Ordering::Equal => below + below.rem_euclid(2),
        Ordering::Greater => below + 1,
    }
}

/// A usable deviation in whole mHz, "against the exact value of the binary32 number". Its size is at most 5 Hz, so its
/// power is below 0.
pub fn mhz(deviation: Exact) -> i128 {
    nearest_even(deviation.whole * 1_000, deviation.power.unsigned_abs())
}

/// The deviation of the meter that counts, or "27 when there are no meters or more than four. 28 when none is usable,
/// after 27."
pub fn choose(meters: &[Meter]) -> Result<i128, u8> {
    if meters.is_empty() || meters.len() > MOST {
        return Err(27);
    }
    let counts = meters
        .iter()
        .filter_map(usable)
        .min_by(|one, other| one.accuracy.compared(other.accuracy)); // of equal ones the first
    counts.map(|meter| mhz(meter.deviation)).ok_or(28)
}

/// A record of the comparison: how many meters, then 9 bytes for each of the first seven.
pub const LENGTH: usize = 64;
const PLACES: usize = 7;
const METER: usize = 9;

fn four(bytes: &[u8], at: usize) -> u32 {
    u32::from_le_bytes([bytes[at], bytes[at + 1], bytes[at + 2], bytes[at + 3]])
}

/// The meters of a record; those past the seventh have no bytes and only count.
pub fn meters(record: &[u8]) -> Vec<Meter> {
    let unwritten = Meter {
        reading: Reading::Failed,
        accuracy: 0,
    };
    let mut meters = vec![unwritten; record[0] as usize];
    for (meter, bytes) in meters.iter_mut().zip(record[1..].chunks(METER)).take(PLACES) {
        meter.reading = match bytes[0] {
            0 => Reading::Frequency(four(bytes, 1)),
            1 => Reading::Deviation(four(bytes, 1)),
            _ => Reading::Failed,
        };
        meter.accuracy = four(bytes, 5);
    }
    meters
}

/// A line for each record: `0 ` and the mHz, 27 or 28; 12 for a last one that is cut short.
pub fn run(input: &mut impl Read, output: &mut impl Write) -> io::Result<()> {
    loop {
        let record = next_bytes(input, LENGTH)?;
        if record.is_empty() {
            return output.flush();
        }
        let answer = if record.len() < LENGTH { Err(12) } else { choose(&meters(&record)) };
        match answer {
            Ok(mhz) => writeln!(output, "0 {}", mhz)?,
            Err(number) => writeln!(output, "{}", number)?,
        }
    }
}

/// The whole output for records in memory.
pub fn output_of(records: &[u8]) -> String {
    let mut output = Vec::new();
    run(&mut &records[..], &mut output).expect("memory does not fail");
    String::from_utf8(output).expect("lines are text")
}

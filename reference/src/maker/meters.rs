//! Records of meters by seed (document 02, W6).

use super::random::Random;
use crate::meters::LENGTH;

/// Forms of a reading; all others say that the meter failed, too.
const FREQUENCY: u8 = 0;
const DEVIATION: u8 = 1;
const FAILED: [u8; 6] = [2, 3, 4, 128, 254, 255];

const SIGN: u32 = 0x8000_0000;
const INFINITY: u32 = 0x7f80_0000;
const LARGEST: u32 = INFINITY - 1;
const SMALLEST_NORMAL: u32 = 0x0080_0000;
/// Quiet and signalling, of both signs, with the lowest and highest bit of the fraction.
const NANS: [u32; 7] = [0x7fc0_0000, 0x7f80_0001, 0x7fff_ffff, 0xffc0_0000, 0xff80_0001, 0xffff_ffff, 0x7fa5_a5a5];
/// Zeros, subnormals and the smallest normal number.
const TINY: [u32; 8] = [0, SIGN, 1, 2, SMALLEST_NORMAL - 1, SMALLEST_NORMAL, SIGN | 1, SIGN | (SMALLEST_NORMAL - 1)];

/// 9 bytes of a record: form, value, accuracy.
#[derive(Clone, Copy)]
struct Place {
    form: u8,
    value: u32,
    accuracy: u32,
}

/// The binary32 number nearest to thousandths of a Hz.
fn nearest(thousandths: f64) -> u32 {
    ((thousandths / 1_000.0) as f32).to_bits()
}

fn bits(value: f32) -> u32 {
    value.to_bits()
}

/// The number itself or one up to `most` places from it among the binary32 numbers.
fn beside(value: u32, most: i64, random: &mut Random) -> u32 {
    value.wrapping_add_signed(random.within(-most, most) as i32)
}

/// The nearest within the range.
fn kept_inside(form: u8, value: u32) -> u32 {
    if form == FREQUENCY {
        value.clamp(bits(45.0), bits(55.0))
    } else {
        (value & !SIGN).min(bits(5.0)) | value & SIGN
    }
}

/// An exact half of a mHz is (2k + 1) / 2,000 Hz; it is a binary32 number only where 125 divides 2k + 1, so the halves are the
/// odd multiples of 1/16 Hz: 80 deviations from -5 to 5 and 80 frequencies.
fn half(random: &mut Random) -> (u8, u32) {
    let sixteenths = 2 * random.within(-40, 39) + 1;
    if random.once_in(2) {
        (FREQUENCY, bits((800 + sixteenths) as f32 / 16.0))
    } else {
        (DEVIATION, bits(sixteenths as f32 / 16.0))
    }
}

/// A half of a mHz, exact or as near as binary32 comes, or a number beside it.
fn about_half(random: &mut Random) -> (u8, u32) {
    let far = random.pick(&[5_000, 200, 20]);
    let halves = random.within(-far, far - 1) as f64 + 0.5;
    let (form, value) = match random.index(4) {
        0 => return half(random),
        1 => half(random),
        2 => (FREQUENCY, nearest(50_000.0 + halves)),
        _ => (DEVIATION, nearest(halves)),
    };
    (form, kept_inside(form, beside(value, 1, random)))
}

/// An end of the range.
fn end(random: &mut Random) -> (u8, u32) {
    random.pick(&[
        (FREQUENCY, bits(45.0)),
        (FREQUENCY, bits(55.0)),
        (DEVIATION, bits(-5.0)),
        (DEVIATION, bits(5.0)),
    ])
}

/// An end of the range or a number beside it, within or outside.
fn about_end(random: &mut Random) -> (u8, u32) {
    let (form, value) = end(random);
    (form, beside(value, random.pick(&[0, 1, 1, 2]), random))
}

/// A reading within its range.
fn inside(random: &mut Random) -> (u8, u32) {
    let far = random.pick(&[5_000, 200, 20]);
    let thousandths = random.within(-far, far) as f64;
    let sign = random.pick(&[0, SIGN]);
    let (form, value) = match random.index(9) {
        0 => (FREQUENCY, random.within(bits(45.0) as i64, bits(55.0) as i64) as u32),
        1 => (DEVIATION, random.within(bits(0.0002) as i64, bits(5.0) as i64) as u32 | sign),
        2 => (FREQUENCY, nearest(50_000.0 + thousandths)),
        3 => (DEVIATION, nearest(thousandths)),
        4 => (DEVIATION, random.within(0, bits(0.001) as i64) as u32 | sign),
        5 => (DEVIATION, random.pick(&TINY)),
        6 => about_end(random),
        _ => about_half(random),
    };
    (form, kept_inside(form, value))
}

/// A reading that isn't usable, whatever its accuracy.
fn outside(random: &mut Random) -> (u8, u32) {
    let form = random.pick(&[FREQUENCY, DEVIATION]);
    let sign = random.pick(&[0, SIGN]);
    let value = match (random.index(8), form) {
        (0, _) => random.pick(&NANS),
        (1, _) => INFINITY | sign,
        (2, _) => LARGEST | sign,
        (3, FREQUENCY) => random.pick(&[bits(45.0) - 1, bits(55.0) + 1]),
        (3, _) => (bits(5.0) + 1) | sign,
        (4, FREQUENCY) => random.within(bits(45.0) as i64, bits(55.0) as i64) as u32 | SIGN,
        (4, _) => random.within(bits(45.0) as i64, bits(55.0) as i64) as u32,
        (5, FREQUENCY) => nearest(random.within(-5_000, 5_000) as f64),
        (5, _) => nearest(random.pick(&[-1.0, 1.0]) * random.within(5_001, 60_000) as f64),
        (6, FREQUENCY) => random.pick(&TINY),
        (6, _) => bits(50.0) | sign,
        _ => {
            let (_, value) = inside(random);
            return (random.pick(&FAILED), value);
        }
    };
    (form, value)
}

/// An accuracy that is usable.
fn above_0(random: &mut Random) -> u32 {
    let stated = [0.001, 0.002, 0.005, 0.01, 0.02, 0.1, 0.0009765625, 0.015625, 1.0].map(bits);
    match random.index(8) {
        0..=2 => random.pick(&stated),
        3 => beside(random.pick(&stated), 2, random),
        4 => random.pick(&[1, 2, 3, SMALLEST_NORMAL - 1, SMALLEST_NORMAL, SMALLEST_NORMAL + 1, LARGEST - 1, LARGEST]),
        5 => random.within(1, SMALLEST_NORMAL as i64) as u32,
        6 => random.within(bits(0.0001) as i64, bits(0.1) as i64) as u32,
        _ => random.within(1, LARGEST as i64) as u32,
    }
}

/// An accuracy that isn't usable.
fn not_above_0(random: &mut Random) -> u32 {
    match random.index(6) {
        0 => 0,
        1 => SIGN,
        2 => above_0(random) | SIGN,
        3 => random.pick(&[SIGN | 1, SIGN | LARGEST]),
        4 => random.pick(&[INFINITY, INFINITY | SIGN]),
        _ => random.pick(&NANS),
    }
}

fn place((form, value): (u8, u32), accuracy: u32) -> Place {
    Place { form, value, accuracy }
}

fn sound(random: &mut Random) -> Place {
    place(inside(random), above_0(random))
}

/// A meter that isn't usable, by its reading, its accuracy or both.
fn unsound(random: &mut Random) -> Place {
    match random.index(3) {
        0 => place(outside(random), above_0(random)),
        1 => place(inside(random), not_above_0(random)),
        _ => place(outside(random), not_above_0(random)),
    }
}

fn any(random: &mut Random) -> Place {
    let other = random.next() as u8;
    let form = random.pick(&[FREQUENCY, DEVIATION, other]);
    match random.index(6) {
        0..=2 => sound(random),
        3 => place(about_end(random), above_0(random)),
        4 => unsound(random),
        _ => place((form, random.next() as u32), random.next() as u32),
    }
}

/// A meter of a record whose smallest accuracy `least` several have: usable ones, and others that have it or a smaller one.
fn tied(least: u32, random: &mut Random) -> Place {
    match random.index(8) {
        0..=3 => place(inside(random), least),
        4 => place(outside(random), least),
        5 => place(inside(random), (least + 1).min(LARGEST)),
        6 => place(outside(random), (least - 1).max(1)),
        _ => place(inside(random), not_above_0(random)),
    }
}

/// Accuracies close together: beside a power of two, in neighbouring powers of two, or anywhere.
fn close(random: &mut Random) -> u32 {
    match random.index(3) {
        0 => beside(bits(0.0078125), 2, random),
        1 => bits(0.0078125) + random.pick(&[0, 1, 0x40_0000, 0x7f_ffff]) + (random.next() as u32 & 0x0180_0000),
        _ => above_0(random),
    }
}

fn one_to_four(random: &mut Random) -> usize {
    random.within(1, 4) as usize
}

/// The families in turn.
const FAMILIES: u64 = 12;

/// How many meters, and the places that are written; the rest of the record is 0.
fn made_of(family: u64, random: &mut Random) -> (u8, Vec<Place>) {
    let few = one_to_four(random);
    let places: Vec<Place> = match family {
        0 => (0..few).map(|_| any(random)).collect(),
        1 | 2 => {
            let least = above_0(random);
            (0..random.within(2, 4)).map(|_| tied(least, random)).collect()
        }
        3 => (0..few).map(|_| place(about_half(random), above_0(random))).collect(),
        4 => vec![place(about_half(random), above_0(random))],
        5 => (0..few).map(|_| place(about_end(random), above_0(random))).collect(),
        6 => vec![place(about_end(random), above_0(random))],
        7 => (0..few).map(|_| place(inside(random), close(random))).collect(),
        8 => (0..few).map(|_| unsound(random)).collect(),
        9 => {
            // one usable meter among others
            let mut places: Vec<Place> = (0..few).map(|_| unsound(random)).collect();
            places[random.index(few)] = sound(random);
            places
        }
        10 => {
            // any number of meters; past the seventh they have no bytes
            let count = match random.index(5) {
                0 => random.pick(&[0, 4, 5, 255]),
                1 => random.pick(&[8, 9, 127, 128, 129, 130, 132, 254]),
                2 => random.next() as u8,
                _ => random.within(0, 7) as u8,
            };
            let of = if random.once_in(3) { unsound } else { any };
            return (count, (0..count.min(7)).map(|_| of(random)).collect());
        }
        _ => {
            // bytes past the last meter, which nobody looks at
            let count = if random.once_in(8) { 0 } else { few };
            let of = if random.once_in(3) { unsound } else { any };
            let places = (0..7).map(|k| if k < count { of(random) } else { sound(random) });
            return (count as u8, places.collect());
        }
    };
    (places.len() as u8, places)
}

/// Records by seed; a longer list of the same seed begins with the shorter one.
pub fn records(seed: u64, count: u64) -> Vec<u8> {
    let mut random = Random::new(seed);
    let mut bytes = Vec::new();
    for number in 0..count {
        let (meters, places) = made_of(number % FAMILIES, &mut random);
        let mut record = [0; LENGTH];
        record[0] = meters;
        for (place, bytes) in places.iter().zip(record[1..].chunks_mut(9)) {
            bytes[0] = place.form;
            bytes[1..5].copy_from_slice(&place.value.to_le_bytes());
            bytes[5..9].copy_from_slice(&place.accuracy.to_le_bytes());
        }
        bytes.extend_from_slice(&record);
    }
    bytes
}

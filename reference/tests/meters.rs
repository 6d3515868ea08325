//! Document 02, W6: which meter counts, and its deviation in whole mHz. Floating point is used here to name numbers and to
//! check by another way; the program itself goes by the bits.

use reference::maker::meter_contents::counted;
use reference::maker::meters::records;
use reference::meters::{choose, exact, meters, mhz, output_of, usable, Exact, Meter, Reading, LENGTH};
use std::cmp::Ordering;

fn frequency(hz: f32, accuracy: f32) -> Meter {
    Meter {
        reading: Reading::Frequency(hz.to_bits()),
        accuracy: accuracy.to_bits(),
    }
}

fn deviation(hz: f32, accuracy: f32) -> Meter {
    Meter {
        reading: Reading::Deviation(hz.to_bits()),
        accuracy: accuracy.to_bits(),
    }
}

fn failed(accuracy: f32) -> Meter {
    Meter {
        reading: Reading::Failed,
        accuracy: accuracy.to_bits(),
    }
}

/// The answer for one frequency, and for one deviation.
fn at(hz: f32) -> Result<i128, u8> {
    choose(&[frequency(hz, 0.001)])
}

fn by(hz: f32) -> Result<i128, u8> {
    choose(&[deviation(hz, 0.001)])
}

/// "frequency from 45 to 55 or deviation from -5 to 5", ends included.
#[test]
fn the_ends_and_their_neighbours() {
    assert_eq!(at(45.0), Ok(-5_000));
    assert_eq!(at(45f32.next_up()), Ok(-5_000));
    assert_eq!(at(45f32.next_down()), Err(28));
    assert_eq!(at(55.0), Ok(5_000));
    assert_eq!(at(55f32.next_down()), Ok(5_000));
    assert_eq!(at(55f32.next_up()), Err(28));
    assert_eq!(by(-5.0), Ok(-5_000));
    assert_eq!(by((-5f32).next_up()), Ok(-5_000));
    assert_eq!(by((-5f32).next_down()), Err(28));
    assert_eq!(by(5.0), Ok(5_000));
    assert_eq!(by(5f32.next_down()), Ok(5_000));
    assert_eq!(by(5f32.next_up()), Err(28));
}

/// Each form has its own range.
#[test]
fn the_other_form_s_values() {
    for hz in [-50.0, -45.0, -5.0, -0.0, 0.0, 0.01, 5.0, 44.0, 56.0, 450.0, f32::MAX, f32::MIN] {
        assert_eq!(at(hz), Err(28), "frequency {}", hz);
    }
    for hz in [-55.0, -50.0, -6.0, 6.0, 45.0, 50.0, 55.0, f32::MAX, f32::MIN] {
        assert_eq!(by(hz), Err(28), "deviation {}", hz);
    }
}

/// "the nearest, ties to the even one": halves of a mHz are odd multiples of 1/16 Hz.
#[test]
fn halves_go_to_the_even_one() {
    for (hz, wanted) in [(0.0625, 62), (0.1875, 188), (0.3125, 312), (0.4375, 438), (0.5625, 562), (4.9375, 4_938)] {
        assert_eq!(by(hz), Ok(wanted));
        assert_eq!(by(-hz), Ok(-wanted));
        assert_eq!(at(50.0 + hz), Ok(wanted));
        assert_eq!(at(50.0 - hz), Ok(-wanted));
    }
    assert_eq!(by(0.0625f32.next_up()), Ok(63));
    assert_eq!(by(0.0625f32.next_down()), Ok(62));
    assert_eq!(by(0.1875f32.next_up()), Ok(188));
    assert_eq!(by(0.1875f32.next_down()), Ok(187));
    assert_eq!(by((-0.0625f32).next_up()), Ok(-62));
    assert_eq!(by((-0.0625f32).next_down()), Ok(-63));
    assert_eq!(at(50.0625f32.next_up()), Ok(63));
    assert_eq!(at(50.0625f32.next_down()), Ok(62));
    assert_eq!(at(49.8125f32.next_up()), Ok(-187));
    assert_eq!(at(49.8125f32.next_down()), Ok(-188));
}

/// "against the exact value of the binary32 number": these are no halves, though a product in binary32 makes halves of
/// them.
#[test]
fn no_half_by_a_product_in_binary32() {
    let mut apart = 0;
    for k in -5_000..5_000i32 {
        let near = ((k as f64 + 0.5) / 1_000.0) as f32;
        let exact = near as f64 * 1_000.0 - k as f64;
        let wanted = match exact.partial_cmp(&0.5).expect("a number") {
            Ordering::Less => k,
            Ordering::Greater => k + 1,
            Ordering::Equal => k + k.rem_euclid(2),
        };
        assert_eq!(by(near), Ok(wanted as i128), "{}", near);
        apart += (((near * 1_000.0).round_ties_even() as i32) != wanted) as u32;
    }
    assert!(apart > 1_000, "only {} deviations tell", apart);
}

#[test]
fn small_ones_are_0() {
    let smallest = f32::from_bits(1);
    for hz in [0.0, smallest, f32::MIN_POSITIVE.next_down(), f32::MIN_POSITIVE, 1e-30, 1e-10, 0.0004999] {
        assert_eq!(by(hz), Ok(0));
        assert_eq!(by(-hz), Ok(0));
        assert_eq!(output_of(&record(1, &[(1, -hz, 0.001)])), "0 0\n", "never -0");
    }
    assert_eq!(at(50.0), Ok(0));
    assert_eq!(by(0.0005), Ok(1), "this number lies above half a mHz");
    assert!(0.0005f32 as f64 > 0.0005);
}

/// Every frequency from 45 to 55: 50 less in binary32 is exact, and that deviation gives the same mHz. The mHz once more
/// in binary64, where every step is exact.
#[test]
fn every_frequency() {
    let (first, last) = (45f32.to_bits(), 55f32.to_bits());
    assert_eq!(last - first + 1, 2_621_441);
    for bits in first..=last {
        let hz = f32::from_bits(bits);
        let wanted = ((hz as f64 - 50.0) * 1_000.0).round_ties_even() as i128;
        assert_eq!((hz - 50.0) as f64, hz as f64 - 50.0);
        assert_eq!(at(hz), Ok(wanted), "{}", hz);
        assert_eq!(by(hz - 50.0), Ok(wanted), "{}", hz);
    }
}

/// One deviation of 499, a prime, of both signs: the mHz in binary64, where the product is exact.
#[test]
fn many_deviations() {
    for bits in (0..=5f32.to_bits()).step_by(499) {
        for hz in [f32::from_bits(bits), -f32::from_bits(bits)] {
            let wanted = (hz as f64 * 1_000.0).round_ties_even() as i128;
            assert_eq!(by(hz), Ok(wanted), "{}", hz);
        }
    }
}

#[test]
fn neither_nan_nor_infinity() {
    for bits in [0x7fc0_0000, 0x7f80_0001, 0x7fff_ffff, 0xffc0_0000, 0xff80_0001, 0xffff_ffff, 0x7f80_0000, 0xff80_0000] {
        let odd = f32::from_bits(bits);
        assert!(exact(bits).is_none());
        for meter in [Reading::Frequency(bits), Reading::Deviation(bits)] {
            let accuracy = 0.001f32.to_bits();
            assert_eq!(choose(&[Meter { reading: meter, accuracy }]), Err(28));
        }
        let accuracy = bits;
        let reading = Reading::Frequency(50f32.to_bits());
        assert_eq!(choose(&[Meter { reading, accuracy }]), Err(28), "accuracy {}", odd);
        let sound = deviation(0.037, 0.5);
        assert_eq!(choose(&[Meter { reading, accuracy }, sound]), Ok(37));
        assert_eq!(choose(&[sound, Meter { reading, accuracy }]), Ok(37));
    }
}

/// "accuracy finite and above 0".
#[test]
fn accuracies() {
    let smallest = f32::from_bits(1);
    for accuracy in [smallest, f32::MIN_POSITIVE.next_down(), f32::MIN_POSITIVE, 0.001, 1.0, f32::MAX] {
        assert_eq!(choose(&[frequency(49.99, accuracy)]), Ok(-10));
        assert_eq!(choose(&[frequency(49.99, -accuracy)]), Err(28));
    }
    assert_eq!(choose(&[frequency(49.99, 0.0)]), Err(28));
    assert_eq!(choose(&[frequency(49.99, -0.0)]), Err(28));
}

/// "the usable one with the smallest accuracy figure counts, the earlier on a tie".
#[test]
fn the_smallest_accuracy_counts_and_the_earlier_on_a_tie() {
    let smallest = f32::from_bits(1);
    assert_eq!(choose(&[deviation(0.001, 0.002), frequency(50.002, 0.001)]), Ok(2));
    assert_eq!(choose(&[deviation(0.001, 0.001), frequency(50.002, 0.002)]), Ok(1));
    assert_eq!(choose(&[deviation(0.001, 0.001), frequency(50.002, 0.001)]), Ok(1));
    assert_eq!(choose(&[frequency(50.002, 0.001), deviation(0.001, 0.001)]), Ok(2));
    assert_eq!(choose(&[deviation(0.001, 0.001), deviation(0.002, 0.001f32.next_down())]), Ok(2));
    assert_eq!(choose(&[deviation(0.001, smallest), deviation(0.002, smallest), deviation(0.003, f32::MAX)]), Ok(1));
    assert_eq!(choose(&[deviation(0.001, f32::MIN_POSITIVE), deviation(0.002, smallest)]), Ok(2));
    assert_eq!(choose(&[deviation(0.001, f32::MAX), deviation(0.002, smallest), deviation(0.003, 1.0)]), Ok(2));
    // a tie with one that isn't usable
    let tie = [deviation(5.001, 0.001), failed(0.001), deviation(0.003, 0.001), deviation(0.004, 0.001)];
    assert_eq!(choose(&tie), Ok(3));
    // smaller figures that aren't usable
    let smaller = [deviation(0.001, 0.0), deviation(0.002, -1.0), failed(0.001), deviation(0.004, 0.5)];
    assert_eq!(choose(&smaller), Ok(4));
}

/// Each of four counts when its accuracy is the smallest.
#[test]
fn each_place() {
    for place in 0..4 {
        let mut four = [1, 2, 3, 4].map(|k| deviation(k as f32 / 1_000.0, 0.01));
        four[place].accuracy = 0.009f32.to_bits();
        assert_eq!(choose(&four), Ok(place as i128 + 1));
    }
}

/// "27 when there are no meters or more than four. 28 when none is usable, after 27."
#[test]
fn numbers_and_their_order() {
    let sound = deviation(0.001, 0.001);
    assert_eq!(choose(&[]), Err(27));
    for count in 1..=4 {
        assert_eq!(choose(&vec![sound; count]), Ok(1));
        assert_eq!(choose(&vec![failed(0.001); count]), Err(28));
    }
    for count in [5, 6, 7, 8, 255] {
        assert_eq!(choose(&vec![sound; count]), Err(27));
        assert_eq!(choose(&vec![failed(0.001); count]), Err(27));
    }
    let failed_ones_count = [sound, failed(0.001), failed(0.001), failed(0.001), failed(0.001)];
    assert_eq!(choose(&failed_ones_count), Err(27));
}

/// Comparing exactly is comparing as numbers.
#[test]
fn exact_values_compare_as_numbers() {
    let mut list = vec![0, 1, 2, 0x7f_ffff, 0x80_0000, 0x80_0001, 0x3f7f_ffff, 0x3f80_0000, 0x3f80_0001, 0x7f7f_fffe, 0x7f7f_ffff];
    list.extend((0..=0x7f7f_ffff).step_by(0x0055_5555));
    list.extend(list.clone().iter().map(|bits| bits | 0x8000_0000));
    for &one in &list {
        for &other in &list {
            let wanted = f32::from_bits(one).partial_cmp(&f32::from_bits(other)).expect("numbers");
            assert_eq!(exact(one).unwrap().compared(exact(other).unwrap()), wanted, "{:x} {:x}", one, other);
        }
    }
    let Exact { whole, power } = exact(0x4249_0000).expect("a number"); // 50.25
    assert_eq!((whole, power), (201 << 16, -18));
    assert_eq!(mhz(Exact { whole: -1, power: -4 }), -62);
}

fn record(count: u8, places: &[(u8, f32, f32)]) -> [u8; LENGTH] {
    let mut record = [0; LENGTH];
    record[0] = count;
    for (&(form, value, accuracy), bytes) in places.iter().zip(record[1..].chunks_mut(9)) {
        bytes[0] = form;
        bytes[1..5].copy_from_slice(&value.to_le_bytes());
        bytes[5..9].copy_from_slice(&accuracy.to_le_bytes());
    }
    record
}

#[test]
fn a_record_s_bytes() {
    // 49.963 Hz is 0x4247da1d in binary32, 0.001 is 0x3a83126f
    let mut bytes = [0; LENGTH];
    bytes[..10].copy_from_slice(&[1, 0, 0x1d, 0xda, 0x47, 0x42, 0x6f, 0x12, 0x83, 0x3a]);
    assert_eq!(bytes, record(1, &[(0, 49.963, 0.001)]));
    assert_eq!(output_of(&bytes), "0 -37\n");
    assert_eq!(meters(&bytes), [frequency(49.963, 0.001)]);
    let seventh = record(7, &[(2, 1.0, 1.0); 7]);
    assert_eq!(meters(&seventh), [failed(1.0); 7]);
    assert_eq!(meters(&record(255, &[])).len(), 255);
}

/// "form, 0 frequency, 1 deviation, any other failed".
#[test]
fn forms() {
    assert_eq!(output_of(&record(1, &[(0, 50.001, 0.001)])), "0 1\n");
    assert_eq!(output_of(&record(1, &[(1, 0.001, 0.001)])), "0 1\n");
    for form in 2..=255 {
        for value in [0.001, 50.001] {
            assert_eq!(output_of(&record(1, &[(form, value, 0.001)])), "28\n", "{}", form);
        }
    }
}

/// A line for each record, whatever stands past its last meter; 12 for one that is cut short, and nothing for no input.
#[test]
fn lines() {
    let sound = (1, 0.001, 0.001);
    let better = (1, 0.002, 0.0001);
    let all = [
        (record(0, &[]), "27\n"),
        (record(0, &[better; 7]), "27\n"),
        (record(1, &[]), "28\n"), // frequency 0, accuracy 0
        (record(1, &[sound, better, better, better, better, better, better]), "0 1\n"),
        (record(3, &[sound, sound, (2, 0.002, 0.0001), better, better]), "0 1\n"),
        (record(4, &[sound, sound, sound, better, better]), "0 2\n"),
        (record(5, &[sound; 7]), "27\n"),
        (record(255, &[sound; 7]), "27\n"),
        (record(2, &[(2, 0.002, 0.0001), (1, 6.0, 0.001), better]), "28\n"),
    ];
    let mut bytes = Vec::new();
    let mut wanted = String::new();
    for (record, line) in all {
        bytes.extend_from_slice(&record);
        wanted += line;
        assert_eq!(output_of(&record), line);
    }
    assert_eq!(output_of(&bytes), wanted);
    for cut in 0..=bytes.len() {
        let whole: String = wanted.split_inclusive('\n').take(cut / LENGTH).collect();
        let last = if cut % LENGTH == 0 { "" } else { "12\n" };
        assert_eq!(output_of(&bytes[..cut]), whole + last);
    }
}

/// The generator's records: everything wanted is among two thousand of a seed, and a longer list begins with a shorter one.
#[test]
fn the_records_have_everything() {
    for seed in 1..=20 {
        let made = records(seed, 2_000);
        assert_eq!(made.len(), 2_000 * LENGTH);
        assert_eq!(made[..100 * LENGTH], records(seed, 100));
        assert_ne!(made, records(seed + 1, 2_000));
        for (name, count) in counted(&made) {
            assert!(count > 0, "seed {}: {}", seed, name);
        }
    }
}

/// By the document's words once more, in binary64: every number that the records have is exact there, and every product.
#[test]
fn the_records_once_more() {
    let made = records(7, 60_000);
    let mut wanted = String::new();
    for record in made.chunks(LENGTH) {
        let count = record[0] as usize;
        if count == 0 || count > 4 {
            wanted += "27\n";
            continue;
        }
        let mut best: Option<(f64, f64)> = None;
        for bytes in record[1..].chunks(9).take(count) {
            let number = |at: usize| f32::from_le_bytes(bytes[at..at + 4].try_into().expect("four bytes")) as f64;
            let hz = match bytes[0] {
                0 => number(1) - 50.0, // a frequency near 0 is not exact here, but far outside either way
                1 => number(1),
                _ => continue,
            };
            let accuracy = number(5);
            let sound = hz.abs() <= 5.0 && accuracy > 0.0 && accuracy < f64::INFINITY;
            if sound && best.is_none_or(|(least, _)| accuracy < least) {
                best = Some((accuracy, hz));
            }
        }
        match best {
            Some((_, hz)) => wanted += &format!("0 {}\n", (hz * 1_000.0).round_ties_even() as i64),
            None => wanted += "28\n",
        }
    }
    assert_eq!(output_of(&made), wanted);
}

#[test]
fn usable_ones_have_an_exact_deviation() {
    let meter = usable(&frequency(50.0625, 0.001)).expect("a usable one");
    assert_eq!(meter.deviation.compared(Exact { whole: 1, power: -4 }), Ordering::Equal);
    assert_eq!(meter.accuracy.compared(exact(0.001f32.to_bits()).unwrap()), Ordering::Equal);
    assert!(usable(&failed(0.001)).is_none());
}

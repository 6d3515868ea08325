//! What is among records of meters, by their bytes and not by what their maker meant to write.

use crate::meters::{exact, meters, mhz, usable, Exact, Meter, Reading, LENGTH};
use std::cmp::Ordering;

/// What a comparison must have seen. Where it says nothing else, of records with one to four meters.
const WANTED: [&str; 60] = [
    "0 meters",
    "1 meters",
    "2 meters",
    "3 meters",
    "4 meters",
    "5 meters",
    "6 meters",
    "7 meters",
    "more than 7 meters",
    "more than 4 meters, none usable",
    "more than 4 meters, some usable",
    "bytes past the last meter",
    "none usable",
    "all four usable",
    "the first counts against another usable one",
    "the second counts against another usable one",
    "the third counts against another usable one",
    "the fourth counts against another usable one",
    "a tie of usable meters with different answers",
    "a tie of the one that counts with an unusable one before it",
    "a tie of the one that counts with an unusable one after it",
    "an unusable one with a smaller accuracy above 0",
    "a failed meter",
    "a failed meter that would count",
    "value NaN",
    "value infinity",
    "value -infinity",
    "value subnormal",
    "value -subnormal",
    "value 0",
    "value -0",
    "accuracy NaN",
    "accuracy infinity",
    "accuracy -infinity",
    "accuracy subnormal",
    "accuracy -subnormal",
    "accuracy 0",
    "accuracy -0",
    "accuracy normal",
    "accuracy -normal",
    "45 Hz counts",
    "55 Hz counts",
    "-5 Hz counts",
    "5 Hz counts",
    "the next number above 45 Hz counts",
    "the next number below 55 Hz counts",
    "the next number above -5 Hz counts",
    "the next number below 5 Hz counts",
    "the next number below 45 Hz alone",
    "the next number above 55 Hz alone",
    "the next number below -5 Hz alone",
    "the next number above 5 Hz alone",
    "a subnormal value counts",
    "a zero counts",
    "a half of a mHz counts: frequency, to the smaller one",
    "a half of a mHz counts: frequency, to the larger one",
    "a half of a mHz counts: deviation, to the smaller one",
    "a half of a mHz counts: deviation, to the larger one",
    "a half below 0 counts, to the smaller one",
    "a half below 0 counts, to the larger one",
];

const PLACES: [&str; 4] = ["first", "second", "third", "fourth"];

/// An end of a range: its form and bits, the bits of the next number within, those of the next one outside.
struct End {
    name: &'static str,
    inward: &'static str,
    outward: &'static str,
    form: fn(u32) -> Reading,
    bits: u32,
    within: u32,
    outside: u32,
}

const ENDS: [End; 4] = [
    End {
        name: "45",
        inward: "above",
        outward: "below",
        form: Reading::Frequency,
        bits: 0x4234_0000,
        within: 0x4234_0001,
        outside: 0x4233_ffff,
    },
    End {
        name: "55",
        inward: "below",
        outward: "above",
        form: Reading::Frequency,
        bits: 0x425c_0000,
        within: 0x425b_ffff,
        outside: 0x425c_0001,
    },
    End {
        name: "-5",
        inward: "above",
        outward: "below",
        form: Reading::Deviation,
        bits: 0xc0a0_0000,
        within: 0xc09f_ffff,
        outside: 0xc0a0_0001,
    },
    End {
        name: "5",
        inward: "below",
        outward: "above",
        form: Reading::Deviation,
        bits: 0x40a0_0000,
        within: 0x409f_ffff,
        outside: 0x40a0_0001,
    },
];

fn class(bits: u32) -> String {
    let size = match bits & 0x7fff_ffff {
        0 => "0",
        1..=0x7f_ffff => "subnormal",
        0x7f80_0000 => "infinity",
        0x7f80_0001.. => return "NaN".to_string(),
        _ => "normal",
    };
    format!("{}{}", if bits >> 31 == 1 { "-" } else { "" }, size)
}

fn value(reading: Reading) -> Option<u32> {
    match reading {
        Reading::Frequency(bits) | Reading::Deviation(bits) => Some(bits),
        Reading::Failed => None,
    }
}

fn equal(one: Exact, other: Exact) -> bool {
    one.compared(other) == Ordering::Equal
}

/// Where a deviation is a half of a mHz, an odd multiple of 62.5 mHz: whether the even one beside it is the larger.
fn half(deviation: Exact) -> Option<bool> {
    let odd = (-79..=79).step_by(2).find(|&whole| equal(deviation, Exact { whole, power: -4 }))?;
    let below = (125 * odd - 1) / 2;
    Some(below % 2 != 0)
}

/// Of a record with one to four meters.
fn of_few(few: &[Meter]) -> Vec<String> {
    let mut names = Vec::new();
    for meter in few {
        match value(meter.reading) {
            Some(bits) => names.extend([format!("value {}", class(bits)), format!("accuracy {}", class(meter.accuracy))]),
            None => names.push("a failed meter".to_string()),
        }
        let sound = exact(meter.accuracy).is_some_and(|accuracy| accuracy.whole > 0);
        for end in ENDS {
            if few.len() == 1 && sound && meter.reading == (end.form)(end.outside) {
                names.push(format!("the next number {} {} Hz alone", end.outward, end.name));
            }
        }
    }
    let sound: Vec<_> = few.iter().map(usable).collect();
    let usable_ones = || sound.iter().flatten();
    let Some(least) = usable_ones().map(|meter| meter.accuracy).min_by(|one, other| one.compared(*other)) else {
        names.push("none usable".to_string());
        return names;
    };
    let has_least = |place: &usize| exact(few[*place].accuracy).is_some_and(|accuracy| equal(accuracy, least));
    let tied: Vec<usize> = (0..few.len()).filter(has_least).collect();
    let usable_tied: Vec<usize> = tied.iter().copied().filter(|&place| sound[place].is_some()).collect();
    let chosen = usable_tied[0];
    let meter = few[chosen];
    let deviation = |place: usize| sound[place].expect("a usable one").deviation;

    if usable_ones().count() == 4 {
        names.push("all four usable".to_string());
    }
    if usable_ones().count() > 1 && usable_tied.len() == 1 {
        names.push(format!("the {} counts against another usable one", PLACES[chosen]));
    }
    if usable_tied.iter().any(|&place| mhz(deviation(place)) != mhz(deviation(chosen))) {
        names.push("a tie of usable meters with different answers".to_string());
    }
    for place in tied.into_iter().filter(|&place| sound[place].is_none()) {
        let side = if place < chosen { "before" } else { "after" };
        names.push(format!("a tie of the one that counts with an unusable one {} it", side));
    }
    for (meter, sound) in few.iter().zip(&sound) {
        let smaller = |accuracy: Exact| accuracy.whole > 0 && accuracy.compared(least) == Ordering::Less;
        if sound.is_none() && exact(meter.accuracy).is_some_and(smaller) {
            names.push("an unusable one with a smaller accuracy above 0".to_string());
            if meter.reading == Reading::Failed {
                names.push("a failed meter that would count".to_string());
            }
        }
    }
    for end in ENDS {
        if meter.reading == (end.form)(end.bits) {
            names.push(format!("{} Hz counts", end.name));
        }
        if meter.reading == (end.form)(end.within) {
            names.push(format!("the next number {} {} Hz counts", end.inward, end.name));
        }
    }
    match value(meter.reading).map(class).as_deref() {
        Some("subnormal" | "-subnormal") => names.push("a subnormal value counts".to_string()),
        Some("0" | "-0") => names.push("a zero counts".to_string()),
        _ => {}
    }
    if let Some(larger) = half(deviation(chosen)) {
        let form = if matches!(meter.reading, Reading::Frequency(_)) { "frequency" } else { "deviation" };
        let way = if larger { "larger" } else { "smaller" };
        names.push(format!("a half of a mHz counts: {}, to the {} one", form, way));
        if deviation(chosen).whole < 0 {
            names.push(format!("a half below 0 counts, to the {} one", way));
        }
    }
    names
}

fn contents(record: &[u8]) -> Vec<String> {
    let all = meters(record);
    let mut names = Vec::new();
    match all.len() {
        1..=4 => names = of_few(&all),
        5.. if all.iter().all(|meter| usable(meter).is_none()) => names.push("more than 4 meters, none usable".to_string()),
        5.. => names.push("more than 4 meters, some usable".to_string()),
        _ => {}
    }
    names.push(if all.len() > 7 { "more than 7 meters".to_string() } else { format!("{} meters", all.len()) });
    if record.iter().skip(1 + 9 * all.len()).any(|&byte| byte != 0) {
        names.push("bytes past the last meter".to_string());
    }
    names
}

/// Everything wanted, and how many records have it.
pub fn counted(records: &[u8]) -> Vec<(&'static str, usize)> {
    let mut counts = WANTED.map(|name| (name, 0));
    for record in records.chunks_exact(LENGTH) {
        let names = contents(record);
        for (name, count) in &mut counts {
            *count += names.iter().any(|there| there == name) as usize;
        }
    }
    counts.to_vec()
}

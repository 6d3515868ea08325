//! Tables for the guide's table 4-1, its figures 6-1, 6-3, 6-6 and 6-8 and its lines 340 to 353, for docs/FIGURES.md.
//!
//! Ours are the setpoints and published bands of a plant that runs second by second: of this program's, or, where
//! `figures ROWS_PROGRAM` names one, of the unit's lines that it prints for a book of the same seconds. The guide's are
//! worked out here from its own formulas, exactly, in grains, and printed in kW to two places.

use reference::maker::book_bytes;
use reference::plant::{Kind, Plant};
use reference::power::Band;
use reference::record::Record;
use reference::sheet::Sheet;
use std::io::Write;
use std::process::{Command, Stdio};

/// The guide's figures here are counted in 540ths of a kW, grains: each is a whole number of them.
const GRAINS: i64 = 540;

/// Grains as kW with two places, without them where there are none; thousands apart.
fn kw(grains: i64) -> String {
    let hundredths = (grains.abs() * 100 + GRAINS / 2) / GRAINS;
    let sign = if grains < 0 { "-" } else { "" };
    let (whole, places) = (hundredths / 100, hundredths % 100);
    if places == 0 {
        format!("{}{}", sign, apart(whole))
    } else {
        format!("{}{}.{:02}", sign, apart(whole), places)
    }
}

/// A whole number with its thousands apart.
fn apart(number: i64) -> String {
    let digits = number.abs().to_string();
    let mut text = String::new();
    for (place, digit) in digits.chars().enumerate() {
        if place > 0 && (digits.len() - place) % 3 == 0 {
            text.push(',');
        }
        text.push(digit);
    }
    if number < 0 {
        text.insert(0, '-');
    }
    text
}

/// What a program prints for a book.
fn printed(program: &str, book: Vec<u8>) -> String {
    let mut child = Command::new(program)
        .stdin(Stdio::piped())
        .stdout(Stdio::piped())
        .spawn()
        .expect("the rows program runs");
    let mut input = child.stdin.take().expect("its input");
    let writer = std::thread::spawn(move || input.write_all(&book).expect("it reads the book"));
    let output = child.wait_with_output().expect("it ends");
    writer.join().expect("the book is written");
    String::from_utf8(output.stdout).expect("text")
}

/// A kind of the unit, second by second, as a rows program prints it: after second and letter, five figures a kind.
fn printed_kinds(program: &str, kind: usize, records: &[Record]) -> Vec<Kind> {
    let seconds: Vec<_> = records
        .iter()
        .map(|record| [record.clone(), Record::default(), Record::default()])
        .collect();
    let text = printed(program, book_bytes(0, &seconds));
    let kinds: Vec<Kind> = text
        .lines()
        .map(|line| line.split(' ').collect::<Vec<_>>())
        .filter(|words| words.get(1) == Some(&"U"))
        .map(|words| {
            let figure = |place: usize| words[2 + 5 * kind + place].parse::<i64>().expect("a figure");
            Kind {
                setpoint: figure(0),
                band: Band {
                    low: figure(1),
                    high: figure(2),
                },
                share: figure(3),
                actual: figure(4),
                ..Kind::default()
            }
        })
        .collect();
    assert_eq!(kinds.len(), records.len(), "a line of the unit for each second");
    kinds
}

/// Our kinds, second by second, of a plant with these records.
fn kinds(kind: usize, records: impl Iterator<Item = Record>) -> Vec<Kind> {
    if let Some(program) = std::env::args().nth(1) {
        return printed_kinds(&program, kind, &records.collect::<Vec<_>>());
    }
    let mut plant = Plant::default();
    records
        .map(|record| {
            let accepted = plant.consider(&record.write()).expect("the figure's second is accepted");
            plant.second(accepted, 0, 0).kinds[kind]
        })
        .collect()
}

fn ours(kind: Kind) -> String {
    format!("{} to {}", apart(kind.band.low), apart(kind.band.high))
}

/// The share of a change, in 540ths, that the guide's two formulas (lines 240 to 247) leave as tolerance at an age.
fn guide_fcr_weights(age: i64) -> Vec<i64> {
    let mut weights = Vec::new();
    if age <= 15 {
        weights.push(GRAINS);
    }
    if (15..=30).contains(&age) {
        weights.push(GRAINS - GRAINS / 2 - GRAINS * (age - 15) / 30);
    }
    if weights.is_empty() {
        weights.push(0);
    }
    weights
}

/// The guide's table 4-1 for a deviation in mHz, in grains; it has no case for exactly 10 mHz.
fn guide_fcr_setpoint(deviation: i64, held: i64) -> Option<i64> {
    match deviation {
        200.. => Some(-held * GRAINS),
        ..=-200 => Some(held * GRAINS),
        _ if deviation.abs() < 10 => Some(0),
        _ if deviation.abs() > 10 => Some(-deviation * held * GRAINS / 200),
        _ => None,
    }
}

fn table_4_1() {
    println!("### Table 4-1: FCR setpoint at its edges\n");
    println!("| held | deviation (mHz) | guide's setpoint | ours |");
    println!("|---:|---:|---:|---:|");
    let edges = [0, 9, 10, 11, 199, 200, 201, -9, -10, -11, -199, -200, -201].map(|deviation| (400, deviation));
    for (held, deviation) in edges.into_iter().chain([(333, -50), (333, 50)]) {
        let guide = guide_fcr_setpoint(deviation, held).map_or("none given".to_string(), kw);
        let record = Record {
            fcr_held: held as i32,
            deviation: deviation as i16,
            status: 1,
            ..Record::default()
        };
        let ours = kinds(0, std::iter::once(record))[0].setpoint;
        println!("| {} | {} | {} | {} |", held, deviation, guide, apart(ours));
    }
    println!();
}

fn figure_6_1() {
    println!("### Figure 6-1: tolerance after one change, by age\n");
    println!("| age (s) | guide, % of the change | guide, 540ths | ours, 540ths |");
    println!("|---:|---:|---:|---:|");
    for age in 0..=31 {
        let guide = guide_fcr_weights(age);
        let percent: Vec<String> = guide.iter().map(|weight| kw(weight * 100)).collect();
        let parts: Vec<String> = guide.iter().map(|weight| weight.to_string()).collect();
        let weight = reference::fcr::weight(1, age, &Sheet::default()).times(GRAINS);
        assert_eq!(weight.down(), weight.up(), "a whole number of 540ths");
        println!("| {} | {} | {} | {} |", age, percent.join(" and "), parts.join(" and "), weight.down());
    }
    println!();
}

fn figure_6_3() {
    const AT: i64 = 60;
    let held = 100_000;
    println!("### Figure 6-3: FCR, one change of +100 MW\n");
    println!("Inputs: FCR held 100,000 kW; deviation 0 up to age -1, -200 mHz from age 0 on.\n");
    println!("| age (s) | setpoint | guide's band | ours |");
    println!("|---:|---:|---:|---:|");
    let kinds = kinds(
        0,
        (0..=AT + 40).map(|now| Record {
            fcr_held: held,
            deviation: if now < AT { 0 } else { -200 },
            status: 1,
            ..Record::default()
        }),
    );
    let floor = held as i64 * GRAINS / 20;
    for age in [-1, 0, 1, 14, 15, 16, 17, 20, 25, 27, 28, 29, 30, 31] {
        let kind = kinds[(AT + age) as usize];
        let s = kind.setpoint * GRAINS;
        let weights = if age < 0 { vec![0] } else { guide_fcr_weights(age) };
        let bands: Vec<String> = weights
            .iter()
            .map(|weight| format!("{} to {}", kw(s - (weight * 100_000).max(floor)), kw(s + floor)))
            .collect();
        println!("| {} | {} | {} | {} |", age, apart(kind.setpoint), bands.join(", then "), ours(kind));
    }
    println!();
}

/// The guide's recursion (lines 278 to 288) for a step at a second, in grains: the limits of each second. The least range is its
/// "minimale Angebotsgröße", 5 MW.
fn guide_afrr_limits(step: i64, at: i64, seconds: i64, least_range: i64) -> Vec<(i64, i64)> {
    let s = |t: i64| if t < at { 0 } else { step * GRAINS };
    let floor = step * GRAINS / 20;
    let (mut low, mut high) = (0, 0);
    let mut limits = Vec::new();
    for t in 0..seconds {
        let past: Vec<i64> = (t - 300..=t - 30).map(s).collect();
        let range = past.iter().max().unwrap() - past.iter().min().unwrap();
        let gradient = range.max(least_range * GRAINS) / 270;
        let reaction: Vec<i64> = (t - 30..=t - 1).map(s).collect();
        high = (*reaction.iter().max().unwrap()).max(high - gradient).max(s(t) + floor);
        low = (*reaction.iter().min().unwrap()).min(low + gradient).min(s(t) - floor);
        limits.push((low, high));
    }
    limits
}

fn figure_6_6() {
    const AT: i64 = 400;
    const SECONDS: i64 = AT + 341;
    let step = 100_000;
    println!("### Figure 6-6: aFRR, one change\n");
    println!("Inputs: aFRR held up 100,000 kW, held down 0; setpoint 0 up to age -1, 100,000 kW from age 0 on.\n");
    println!("| age (s) | setpoint | guide's band | the same with 1,000 kW | ours |");
    println!("|---:|---:|---:|---:|---:|");
    let kinds = kinds(
        1,
        (0..SECONDS).map(|now| Record {
            afrr_held_up: step as i32,
            afrr_setpoint: if now < AT { 0 } else { step as i32 },
            status: 2,
            ..Record::default()
        }),
    );
    let guide = guide_afrr_limits(step, AT, SECONDS, 5_000);
    let default = guide_afrr_limits(step, AT, SECONDS, Sheet::default().least_range);
    for age in [-1, 0, 1, 29, 30, 31, 60, 120, 180, 240, 270, 285, 286, 287, 298, 299, 300, 301, 330] {
        let t = (AT + age) as usize;
        let [guide, default] = [guide[t], default[t]].map(|(low, high)| format!("{} to {}", kw(low), kw(high)));
        println!("| {} | {} | {} | {} | {} |", age, apart(kinds[t].setpoint), guide, default, ours(kinds[t]));
    }
    println!();
}

/// A call as the guide has it: at, start, end value, end of delivery, and when a new call ended it.
struct Activation {
    at: i64,
    start: i64,
    target: i64,
    end: i64,
    ended: i64,
}

impl Activation {
    /// The guide's temporary limits (lines 324 to 330) at `t`, those with s(j) × 1.2, as far as they are relevant:
    /// of the running call, or of the phase that a new call interrupted until that phase would have ended.
    fn limits(&self, t: i64) -> Option<(i64, i64)> {
        let phase = |t: i64| match t {
            t if t < self.at => 0,
            t if t <= self.at + 900 => 1,
            t if t <= self.end => 2,
            t if t <= self.end + 900 => 3,
            _ => 4,
        };
        let now = phase(t);
        if t > self.ended && now != phase(self.ended) {
            return None;
        }
        let (b, e) = (self.start * GRAINS, self.target * GRAINS);
        let all = match now {
            1 => vec![e, e * 6 / 5, b, b * 6 / 5],
            2 => vec![e * 6 / 5, e],
            3 => vec![e * 6 / 5, e, 0],
            _ => return None,
        };
        Some((*all.iter().min().unwrap(), *all.iter().max().unwrap()))
    }
}

fn mfrr_table(calls: &[Activation], seconds: &[i64]) {
    println!("| second | minute | setpoint | guide's band | ours |");
    println!("|---:|---:|---:|---:|---:|");
    let last = *seconds.last().unwrap();
    let kinds = kinds(
        2,
        (0..=last).map(|now| {
            let mut record = Record {
                status: 4,
                ..Record::default()
            };
            if let Some(call) = calls.iter().find(|call| call.at == now) {
                record.call = 1;
                record.mfrr_target = call.target as i32;
                record.delivery_end = call.end as u32;
            }
            record
        }),
    );
    for call in calls {
        assert_eq!(kinds[call.at as usize].setpoint, call.start, "the start that the guide's limits are given");
    }
    for &t in seconds {
        let limits: Vec<(i64, i64)> = calls.iter().filter_map(|call| call.limits(t)).collect();
        let low = limits.iter().map(|limits| limits.0).min().unwrap_or(0);
        let high = limits.iter().map(|limits| limits.1).max().unwrap_or(0);
        let minute = if t % 60 == 0 { (t / 60).to_string() } else { String::new() };
        let kind = kinds[t as usize];
        println!(
            "| {} | {} | {} | {} to {} | {} |",
            apart(t),
            minute,
            apart(kind.setpoint),
            kw(low),
            kw(high),
            ours(kind)
        );
    }
    println!();
}

fn figure_6_8() {
    println!("### Figure 6-8: mFRR, one positive call\n");
    println!("Inputs: a call at second 0, target 30,000 kW, delivery end 2,700.\n");
    let call = Activation {
        at: 0,
        start: 0,
        target: 30_000,
        end: 2_700,
        ended: i64::MAX,
    };
    mfrr_table(&[call], &[0, 1, 450, 899, 900, 901, 902, 1_800, 2_700, 2_701, 3_150, 3_600, 3_601, 3_660]);
}

fn lines_340_to_353() {
    println!("### Lines 340 to 353: mFRR, calls one after the other\n");
    println!("Inputs: a call at minute 0 (second 0), target 27,000 kW, delivery end 2,700 (minute 45); one at minute 50");
    println!("(3,000), target 25,000 kW, end 4,500 (minute 75); one at minute 70 (4,200), target -10,000 kW, end 5,400.\n");
    let calls = [
        Activation {
            at: 0,
            start: 0,
            target: 27_000,
            end: 2_700,
            ended: 3_000,
        },
        Activation {
            at: 3_000,
            start: 18_000,
            target: 25_000,
            end: 4_500,
            ended: 4_200,
        },
        Activation {
            at: 4_200,
            start: 25_000,
            target: -10_000,
            end: 5_400,
            ended: i64::MAX,
        },
    ];
    mfrr_table(
        &calls,
        &[
            2_700, 2_701, 2_999, 3_000, 3_300, 3_599, 3_600, 3_601, 3_900, 3_901, 4_199, 4_200, 4_201, 4_500, 4_501, 5_100, 5_101,
            5_400, 5_401, 6_300, 6_301,
        ],
    );
}

fn main() {
    table_4_1();
    figure_6_1();
    figure_6_3();
    figure_6_6();
    figure_6_8();
    lines_340_to_353();
}

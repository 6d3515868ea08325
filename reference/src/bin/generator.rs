//! `generator SEED [FAMILY]` writes a book to standard output; `generator SEED long [SECONDS]` a long day;
//! `generator name SEED [FAMILY]` says which family and case that is; `generator families` lists the families;
//! `generator seeds` says how many seeds in a row make every broken case; `generator short-example` writes the shipped book;
//! `generator meters SEED COUNT` writes records of meters, `generator meter-contents SEED COUNT` says what is among them;
//! `generator cut SEED` writes a count and a book to be cut there, `generator cut-name SEED` says what that is,
//! `generator cut-contents SEED COUNT` what is among those of COUNT seeds; `generator sheet SEED` writes a sheet and a book,
//! `generator sheet-name SEED` says what that is, `generator sheet-seeds` how many seeds in a row make every case of it,
//! `generator sheet-contents SEED COUNT` what is among those of COUNT seeds.

use reference::maker::book_bytes;
use reference::maker::cut_contents;
use reference::maker::cuts;
use reference::maker::example;
use reference::maker::families::{long, make, seeds_for_all, Made, WHOLE};
use reference::maker::meter_contents::counted;
use reference::maker::meters::records;
use reference::maker::sheet_contents;
use reference::maker::sheets;
use std::io::{self, Write};
use std::process::exit;

const USAGE: &str = "generator SEED [FAMILY [SECONDS]] | generator name SEED [FAMILY] | generator families | \
    generator seeds | generator short-example | generator meters SEED COUNT | generator meter-contents SEED COUNT | \
    generator cut SEED | generator cut-name SEED | generator cut-contents SEED COUNT | generator sheet SEED | \
    generator sheet-name SEED | generator sheet-seeds | generator sheet-contents SEED COUNT";

fn book(arguments: &[String]) -> Result<Made, String> {
    let seed: u64 = arguments.first().and_then(|seed| seed.parse().ok()).ok_or(USAGE)?;
    match (arguments.get(1).map(String::as_str), arguments.get(2)) {
        (Some("long"), Some(seconds)) => Ok(long(seed, seconds.parse().map_err(|_| USAGE)?)),
        (family, None) => make(seed, family),
        _ => Err(USAGE.to_string()),
    }
}

/// The arguments as so many numbers.
fn numbers<const COUNT: usize>(arguments: &[String]) -> Result<[u64; COUNT], String> {
    let numbers: Result<Vec<u64>, _> = arguments.iter().map(|number| number.parse()).collect();
    numbers.ok().and_then(|numbers| numbers.try_into().ok()).ok_or(USAGE.to_string())
}

fn meters(arguments: &[String]) -> Result<Vec<u8>, String> {
    numbers(arguments).map(|[seed, count]| records(seed, count))
}

fn cut(arguments: &[String]) -> Result<cuts::Input, String> {
    numbers(arguments).map(|[seed]| cuts::make(seed))
}

fn sheet(arguments: &[String]) -> Result<sheets::Input, String> {
    numbers(arguments).map(|[seed]| sheets::make_input(seed))
}

/// A line for each thing that is wanted of inputs: in how many of them it is, in how many it must be, and what it is.
fn lines_of(counted: Vec<(String, usize, usize)>) -> Vec<u8> {
    let lines = counted.into_iter().map(|(name, least, count)| format!("{} {} {}\n", count, least, name));
    lines.collect::<String>().into_bytes()
}

fn contents_of_cuts(arguments: &[String]) -> Result<Vec<u8>, String> {
    let [first, count] = numbers(arguments)?;
    Ok(lines_of(cut_contents::counted((first..first + count).map(|seed| cuts::make(seed).bytes))))
}

fn contents_of_sheets(arguments: &[String]) -> Result<Vec<u8>, String> {
    let [first, count] = numbers(arguments)?;
    Ok(lines_of(sheet_contents::counted((first..first + count).map(|seed| sheets::make_input(seed).bytes))))
}

/// A line for each thing that is wanted: how many records have it, and what it is.
fn contents(records: &[u8]) -> Vec<u8> {
    let lines = counted(records).into_iter().map(|(name, count)| format!("{} {}\n", count, name));
    lines.collect::<String>().into_bytes()
}

fn main() {
    let arguments: Vec<String> = std::env::args().skip(1).collect();
    let answer = match arguments.first().map(String::as_str) {
        Some("families") => Ok((WHOLE.join("\n") + "\nbroken\n").into_bytes()),
        Some("short-example") => Ok(book_bytes(example::OWNER, &example::short_example())),
        Some("seeds") => Ok(format!("{}\n", seeds_for_all()).into_bytes()),
        Some("meters") => meters(&arguments[1..]),
        Some("meter-contents") => meters(&arguments[1..]).map(|records| contents(&records)),
        Some("cut") => cut(&arguments[1..]).map(|input| input.bytes),
        Some("cut-name") => cut(&arguments[1..]).map(|input| (input.name + "\n").into_bytes()),
        Some("cut-contents") => contents_of_cuts(&arguments[1..]),
        Some("sheet") => sheet(&arguments[1..]).map(|input| input.bytes),
        Some("sheet-name") => sheet(&arguments[1..]).map(|input| (input.name + "\n").into_bytes()),
        Some("sheet-seeds") => Ok(format!("{}\n", sheets::seeds_for_all()).into_bytes()),
        Some("sheet-contents") => contents_of_sheets(&arguments[1..]),
        Some("name") => book(&arguments[1..]).map(|made| (made.name + "\n").into_bytes()),
        _ => book(&arguments).map(|made| made.bytes),
    };
    match answer {
        Ok(bytes) => io::stdout().write_all(&bytes).unwrap_or_else(|_| exit(1)),
        Err(message) => {
            eprintln!("{}", message);
            exit(2);
        }
    }
}

//! A book cut once (document 02, W7): its first seconds as a book that is handed over, the rest as the one that follows.

use crate::book::Book;
use crate::line::{row_lines, sum_line};
use crate::program::{for_each_second, last_line, next_bytes, Stop};
use crate::record::{self, Record};
use std::io::{self, Read, Write};

/// The length of the count before the book.
pub const COUNT: usize = 4;

/// The bytes of a second with the delivery ends of its calls in the seconds of a book that begins at second `cut`. An end before
/// that has no such number; what then stands there is far above every end that 9 takes.
pub fn moved_back(bytes: &[u8], cut: u32) -> Vec<u8> {
    let mut moved = Vec::new();
    for bytes in bytes.chunks(record::LENGTH) {
        let mut record = Record::read(bytes);
        if record.call == 1 {
            record.delivery_end = record.delivery_end.wrapping_sub(cut);
        }
        moved.extend_from_slice(&record.write());
    }
    moved
}

/// Runs a book, handed over before second `cut` is judged, and leaves `book` as the one that is open at the end.
fn run_cut(input: &mut impl Read, output: &mut impl Write, cut: u32, book: &mut Book) -> Result<(), Stop> {
    let mut is_cut = false;
    for_each_second(input, |owner, bytes| {
        if !is_cut && book.seconds() == cut as usize {
            output.write_all(sum_line(&book.sums).as_bytes())?;
            *book = book.hand_over()?;
            is_cut = true;
        }
        let second = book.seconds();
        let rows = if is_cut { book.second(owner, &moved_back(bytes, cut))? } else { book.second(owner, bytes)? };
        output.write_all(row_lines(second, &rows).as_bytes())?;
        Ok(())
    })
}

/// Reads a count and a book, and prints the rows of both parts, each with its sum line; the last line may be a refusal.
pub fn run(input: &mut impl Read, output: &mut impl Write) -> io::Result<()> {
    let mut book = Book::default();
    let ended = match <[u8; COUNT]>::try_from(next_bytes(input, COUNT)?) {
        Ok(count) => run_cut(input, output, u32::from_le_bytes(count), &mut book),
        Err(_) => Err(Stop::Refused(12)),
    };
    output.write_all(last_line(ended, &book)?.as_bytes())?;
    output.flush()
}

/// The whole output for an input in memory.
pub fn output_of(bytes: &[u8]) -> String {
    let mut output = Vec::new();
    run(&mut &bytes[..], &mut output).expect("memory does not fail");
    String::from_utf8(output).expect("lines are text")
}

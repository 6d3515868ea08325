//! A book under a sheet (document 02, W9): 16 bytes of figures, then a book.

use crate::book::Book;
use crate::line::{refusal_line, row_lines};
use crate::program::{next_bytes, run_from};
use crate::sheet::{self, Sheet};
use std::io::{self, Read, Write};

/// Reads a sheet and a book, and prints its rows under the sheet. Where no book opens the refusal is all, and nothing more is
/// read.
pub fn run(input: &mut impl Read, output: &mut impl Write) -> io::Result<()> {
    let bytes = next_bytes(input, sheet::LENGTH)?;
    match Sheet::read(&bytes).and_then(Book::open) {
        Ok(book) => run_from(book, input, output, row_lines),
        Err(number) => {
            output.write_all(refusal_line(number, 0).as_bytes())?;
            output.flush()
        }
    }
}

/// The whole output for an input in memory.
pub fn output_of(bytes: &[u8]) -> String {
    let mut output = Vec::new();
    run(&mut &bytes[..], &mut output).expect("memory does not fail");
    String::from_utf8(output).expect("lines are text")
}

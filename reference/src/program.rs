//! The program: a book from its input, lines to its output.

use crate::block::{self, read_block, read_header};
use crate::book::{self, Book, Refusal};
use crate::line::{refusal_line, sum_line};
use crate::plant::Row;
use std::io::{self, Read, Write};

/// The next bytes of the input, at most `most`; fewer only at its end.
pub fn next_bytes(input: &mut impl Read, most: usize) -> io::Result<Vec<u8>> {
    let mut bytes = Vec::with_capacity(most);
    input.take(most as u64).read_to_end(&mut bytes)?;
    Ok(bytes)
}

/// What ends a book's output before its sum line.
pub enum Stop {
    Refused(u8),
    Failed(io::Error),
}

impl From<u8> for Stop {
    fn from(number: u8) -> Stop {
        Stop::Refused(number)
    }
}

impl From<Refusal> for Stop {
    fn from(refusal: Refusal) -> Stop {
        Stop::Refused(refusal.number)
    }
}

impl From<io::Error> for Stop {
    fn from(error: io::Error) -> Stop {
        Stop::Failed(error)
    }
}

/// What is printed of a book: lines of each accepted second, and lines before the sum line or the refusal.
pub trait Form {
    fn of_second(&mut self, second: usize, rows: &[Row; 3]) -> String;

    fn before_last(&self) -> String {
        String::new()
    }
}

impl<F: Fn(usize, &[Row; 3]) -> String> Form for F {
    fn of_second(&mut self, second: usize, rows: &[Row; 3]) -> String {
        self(second, rows)
    }
}

/// Gives `judge` the owner and the bytes of each second in turn. A block is wholly read before its first second is judged.
pub fn for_each_second(
    input: &mut impl Read,
    mut judge: impl FnMut(u8, &[u8]) -> Result<(), Stop>,
) -> Result<(), Stop> {
    let header = read_header(&next_bytes(input, block::LENGTH)?)?;
    let blocks = (header.seconds + 3) / 4;
    for number in 1..=blocks {
        let bytes = next_bytes(input, block::LENGTH)?;
        let seconds = read_block(&bytes, header.seconds, number)?;
        for second in seconds.chunks(book::LENGTH) {
            judge(header.owner, second)?;
        }
    }
    if !next_bytes(input, 1)?.is_empty() {
        return Err(Stop::Refused(21));
    }
    Ok(())
}

/// The sum line, or the refusal with the seconds that the book has accepted so far.
pub fn last_line(ended: Result<(), Stop>, book: &Book) -> io::Result<String> {
    match ended {
        Ok(()) => Ok(sum_line(&book.sums)),
        Err(Stop::Refused(number)) => Ok(refusal_line(number, book.seconds())),
        Err(Stop::Failed(error)) => Err(error),
    }
}

/// Reads a book and prints it in a form; the last line is the sum line or the refusal. It opens with the default sheet.
pub fn run(input: &mut impl Read, output: &mut impl Write, form: impl Form) -> io::Result<()> {
    run_from(Book::default(), input, output, form)
}

/// The same from an open book on.
pub fn run_from(mut book: Book, input: &mut impl Read, output: &mut impl Write, mut form: impl Form) -> io::Result<()> {
    let ended = for_each_second(input, |owner, bytes| {
        let second = book.seconds();
        let rows = book.second(owner, bytes)?;
        output.write_all(form.of_second(second, &rows).as_bytes())?;
        Ok(())
    });
    let last = last_line(ended, &book)?;
    output.write_all(form.before_last().as_bytes())?;
    output.write_all(last.as_bytes())?;
    output.flush()
}

/// The same from standard input to standard output.
pub fn run_standard(form: impl Form) {
    let mut input = io::BufReader::with_capacity(1 << 16, io::stdin().lock());
    let mut output = io::BufWriter::with_capacity(1 << 16, io::stdout().lock());
    if let Err(error) = run(&mut input, &mut output, form) {
        eprintln!("{}", error);
        std::process::exit(1);
    }
}

/// The whole output for a book in memory.
pub fn output_of(bytes: &[u8], form: impl Form) -> String {
    let mut output = Vec::new();
    run(&mut &bytes[..], &mut output, form).expect("memory does not fail");
    String::from_utf8(output).expect("lines are text")
}

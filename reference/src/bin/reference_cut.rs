//! A count and a book from standard input; its rows, handed over at that second, with both sum lines, to standard output.

use std::io;

fn main() {
    let mut input = io::BufReader::with_capacity(1 << 16, io::stdin().lock());
    let mut output = io::BufWriter::with_capacity(1 << 16, io::stdout().lock());
    if let Err(error) = reference::cut::run(&mut input, &mut output) {
        eprintln!("{}", error);
        std::process::exit(1);
    }
}

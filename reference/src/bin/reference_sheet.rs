//! A sheet and a book from standard input; every figure of every row under that sheet to standard output.

use std::io;

fn main() {
    let mut input = io::BufReader::with_capacity(1 << 16, io::stdin().lock());
    let mut output = io::BufWriter::with_capacity(1 << 16, io::stdout().lock());
    if let Err(error) = reference::under_sheet::run(&mut input, &mut output) {
        eprintln!("{}", error);
        std::process::exit(1);
    }
}

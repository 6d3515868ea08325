//! A book from standard input, its blocks written anew to standard output, up to the first that the reader refuses.

use reference::copy::copy;
use std::io::{self, Write};

fn main() {
    let mut input = io::BufReader::with_capacity(1 << 16, io::stdin().lock());
    let mut output = io::BufWriter::with_capacity(1 << 16, io::stdout().lock());
    if let Err(error) = copy(&mut input, &mut output).and_then(|()| output.flush()) {
        eprintln!("{}", error);
        std::process::exit(1);
    }
}

//! Records of meters from standard input; a line each, `0 ` and the deviation in mHz or a number, to standard output.

use std::io;

fn main() {
    let mut input = io::BufReader::with_capacity(1 << 16, io::stdin().lock());
    let mut output = io::BufWriter::with_capacity(1 << 16, io::stdout().lock());
    if let Err(error) = reference::meters::run(&mut input, &mut output) {
        eprintln!("{}", error);
        std::process::exit(1);
    }
}

//! A book from standard input; a line a second and the sum line, or a refusal, to standard output.

fn main() {
    reference::program::run_standard(reference::line::second_line);
}

//! A book from standard input; every figure of every row, a line a plant and second, to standard output.

fn main() {
    reference::program::run_standard(reference::line::row_lines);
}

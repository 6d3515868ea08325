//! A book from standard input; what was shared in every plant and second, with its remainders, to standard output.

fn main() {
    reference::program::run_standard(reference::line::share_lines);
}

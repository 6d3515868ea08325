//! A book from standard input; a line for each second, plant and kind outside its band, nine lines of counts, and the
//! sum line or a refusal, to standard output.

fn main() {
    reference::program::run_standard(reference::short::Short::default());
}

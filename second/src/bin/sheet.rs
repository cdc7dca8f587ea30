//! The program sheet: standard input to standard output.

use second::programs::{serve, sheet, MOST_INPUT};

fn main() -> std::io::Result<()> {
    serve(MOST_INPUT, sheet)
}

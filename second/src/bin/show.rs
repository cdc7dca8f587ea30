//! The program show: standard input to standard output.

use second::programs::{serve, show, MOST_INPUT};

fn main() -> std::io::Result<()> {
    serve(MOST_INPUT, show)
}

//! The program cable: standard input to standard output.

use second::programs::{cable, serve, MOST_INPUT};

fn main() -> std::io::Result<()> {
    serve(MOST_INPUT, cable)
}

//! The program build: standard input to standard output.

use second::programs::{build, serve, MOST_INPUT};

fn main() -> std::io::Result<()> {
    serve(MOST_INPUT, build)
}

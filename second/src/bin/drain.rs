//! The program drain: standard input to standard output.

use second::programs::{drain, serve, MOST_INPUT};

fn main() -> std::io::Result<()> {
    serve(MOST_INPUT, drain)
}

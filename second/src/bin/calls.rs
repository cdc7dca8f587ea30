//! The program calls: one call from standard input, its answer as text.

use second::programs::serve;
use second::protocol::{calls, MOST_CALL};

fn main() -> std::io::Result<()> {
    serve(MOST_CALL, calls)
}

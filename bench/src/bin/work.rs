//! `work second` or `work lean`: does the work of standard input, and prints
//! the last answer's number.

use std::io::Read;

fn main() {
    let lean = std::env::args().nth(1).as_deref() == Some("lean");
    let mut input = Vec::new();
    std::io::stdin()
        .read_to_end(&mut input)
        .expect("standard input");
    println!("{}", bench::work::answer(&input, lean).unwrap_or(0));
}

//! The program worked: it reads nothing, and prints what is found of the
//! networks worked by hand.

use second::by_hand::worked;
use second::programs::serve;

fn main() -> std::io::Result<()> {
    serve(0, worked)
}

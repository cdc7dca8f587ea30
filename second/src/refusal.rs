//! Refusals: a number from the table, and a place.

use std::fmt;

/// What a refused call answers.
#[derive(Clone, Copy, Debug, PartialEq, Eq)]
pub struct Refusal {
    pub number: u8,
    pub place: usize,
}

/// The refusal with this number at this place.
pub fn refusal(number: u8, place: usize) -> Refusal {
    Refusal { number, place }
}

impl fmt::Display for Refusal {
    fn fmt(&self, f: &mut fmt::Formatter<'_>) -> fmt::Result {
        write!(f, "refused {} {}", self.number, self.place)
    }
}

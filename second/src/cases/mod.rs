//! The cases of the comparison: which program, which input. Fixed families
//! are lists; the others are drawn, each case from seed and index alone.

pub mod boards;
pub mod cabling;
pub mod damage;
pub mod drawn;
pub mod growing;
pub mod hops;
pub mod limits;
pub mod pack;
pub mod random;
pub mod restarts;
pub mod shapes;
pub mod sheets;
pub mod turning;
pub mod worked;

/// One run of a program on an input.
#[derive(Clone, Debug, PartialEq, Eq)]
pub struct Case {
    pub family: &'static str,
    pub program: &'static str,
    pub input: Vec<u8>,
}

/// How large the networks get and how far the fixed families go.
#[derive(Clone, Copy, Debug, PartialEq, Eq)]
pub enum Set {
    Small,
    Large,
}

impl Case {
    pub fn new(family: &'static str, program: &'static str, input: Vec<u8>) -> Case {
        Case {
            family,
            program,
            input,
        }
    }
}

/// All cases of the fixed families.
pub fn fixed(set: Set) -> Vec<Case> {
    let mut cases = worked::cases();
    cases.extend(worked::by_hand());
    cases.extend(shapes::cases(set));
    cases.extend(damage::cases(set));
    cases.extend(limits::cases());
    cases.extend(sheets::cases(set));
    cases.extend(restarts::cases());
    cases.extend(hops::cases());
    cases
}

pub use drawn::{drawn, DRAWN};

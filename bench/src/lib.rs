//! What the benchmark measures: builds and drains, repeated, by the second
//! program's library and by a lean version of the same rule.

pub mod lean;
pub mod work;

//! The second program: images, sheets, labels, rows, routes, the drain machine
//! and the programs of docs/RULES.md, and the cases for the comparison.

pub mod by_hand;
pub mod calls;
pub mod cases;
pub mod drain;
pub mod image;
pub mod label;
pub mod network;
pub mod programs;
pub mod protocol;
pub mod refusal;
pub mod rows;
pub mod sheets;
pub mod unstarted;

//! The Rust as the judge: runs generated lists through the reading of 01 and 02
//! and through the Rust, and compares every answer and the whole state.

pub mod compare;
pub mod keys;
pub mod reads;
pub mod short;
pub mod ways;

pub use compare::{RustBeside, Tally, against_the_rust, reading_alone};
pub use ways::{Way, Ways};

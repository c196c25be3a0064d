//! The calls of the six oscillators: records, the lines that they are answered with, and the
//! second implementation that is held against the ported Rust.

pub mod expect;
mod kinds;
mod line;
pub mod make;
pub mod model;
mod original;
pub mod record;
pub mod resets;
pub mod stats;

pub use kinds::Kinds;
pub use line::{answer_and_counts, canonical, checksum};
pub use model::start;
pub use original::starting_words;
pub use record::{CLASSIC, SHAPE};

#[cfg(test)]
mod classic_tests;
#[cfg(test)]
mod late_tests;
#[cfg(test)]
mod tests;
#[cfg(test)]
pub mod wrong_rules;

//! What a record of a job list leaves in a lent buffer: `crates/heard` prints it, one line for each
//! record, from states that are carried over the list.

mod expect;
mod make;

pub use expect::{played, texts};
pub use make::{faults, sound, stream};

#[cfg(test)]
mod tests;

//! The program `stem`: a rate and a job list become a WAV file of what the list's records left.

mod expect;
mod make;

pub use expect::{first_difference, lines, said, stem, Stem};
pub use make::{inputs, recorded};

#[cfg(test)]
mod tests;

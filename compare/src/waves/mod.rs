//! Stems as WAV: a second implementation of `write`, and the records of the program `waves`, each of
//! which asks for one call of it.

pub mod boundaries;
mod expect;
mod make;
mod number;
mod record;
mod stem;
mod whole;
mod write;

pub use expect::{checksum, first_difference, text, Tried};
pub use make::{fresh, recorded};
pub use stem::HEADER_BYTES;
pub use write::{write, DONE};

#[cfg(test)]
mod tests;

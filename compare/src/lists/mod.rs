//! Job lists, the renderer's input: records of 64 bytes without a header, and the text that the
//! renderer prints for a list.

pub mod expect;
pub mod framed;
pub mod job;
pub mod make;
mod stats;

pub use job::JOB_BYTES;
pub use stats::Tried;

#[cfg(test)]
mod late_tests;
#[cfg(test)]
mod recorded_tests;
#[cfg(test)]
mod tests;

/// The longest input that the renderer takes, 1,024 records.
pub const MOST_BYTES: usize = 65_536;

/// Whether the renderer refuses the input as a whole.
pub fn refused(input: &[u8]) -> bool {
    input.len() > MOST_BYTES || !input.len().is_multiple_of(JOB_BYTES)
}

//! What a job record says, field by field: `crates/records` prints it, and here it is what the second
//! implementation reads. The records stand one after the other, and a rest of fewer than 64 bytes may
//! be the last.

mod expect;
mod make;

pub use expect::text;

use crate::lists::job::JOB_BYTES;

pub const RECORD_BYTES: usize = JOB_BYTES;

/// The bytes of `count` records, and a rest.
pub fn records(count: u64, seed: u64) -> Vec<u8> {
    make::records(count as usize, seed)
}

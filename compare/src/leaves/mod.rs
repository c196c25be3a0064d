//! The leaves: polyblep, the interpolator, the whole part and four float functions. A record is
//! three 32-bit words x, y, z, little-endian.

mod answers;
pub mod expect;
pub mod make;

pub const RECORD_BYTES: usize = 12;

//! The states that the oscillators start from, the variable shape's master phase set from outside,
//! and the classic's `init` at a sample rate. A record is eleven 32-bit words, little-endian: ten state
//! words, of which the classic's state has the first nine, and a word that is the phase and the rate.

mod difference;
mod expect;
mod init;
pub mod make;
mod set;

pub use difference::first_difference;
pub use expect::text;
pub use init::{init, initial};
pub use set::set;

/// How many words the variable shape's state has.
const STATE_WORDS: usize = 10;

pub const RECORD_BYTES: usize = 4 * (STATE_WORDS + 1);

#[derive(Clone, Copy, Debug, PartialEq)]
struct Record {
    state: [u32; STATE_WORDS],
    /// The phase to set, and the sample rate.
    given: u32,
}

impl Record {
    fn read(bytes: &[u8]) -> Self {
        let word = |i: usize| u32::from_le_bytes([0, 1, 2, 3].map(|byte| bytes[4 * i + byte]));
        Record {
            state: std::array::from_fn(word),
            given: word(STATE_WORDS),
        }
    }

    fn bytes(&self) -> Vec<u8> {
        let words = self.state.iter().chain([&self.given]);
        words.flat_map(|word| word.to_le_bytes()).collect()
    }
}

/// The bytes of `count` records.
pub fn records(count: u64, seed: u64) -> Vec<u8> {
    let records = make::records(count as usize, seed);
    records.iter().flat_map(Record::bytes).collect()
}

#[cfg(test)]
mod tests {
    use super::*;

    #[test]
    fn a_record_is_read_as_it_is_written() {
        let record = Record {
            state: [1, 2, 3, 4, 5, 6, 7, 8, 9, 0xff80_0001],
            given: 0x3f00_0000,
        };
        let bytes = record.bytes();
        assert_eq!(bytes.len(), RECORD_BYTES);
        assert_eq!(bytes[36..], [1, 0, 0x80, 0xff, 0, 0, 0, 0x3f]);
        assert_eq!(Record::read(&bytes), record);
    }
}

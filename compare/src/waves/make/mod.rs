//! Records: first fixed ones, of every answer and every boundary that matters, then random ones.

mod fixed;
mod random;
mod values;

use super::boundaries::{beside, COUNT};
use super::record::{Record, PATTERNS};
use super::stem::HEADER_BYTES;
use crate::random::Random;
use fixed::fixed;
use values::{PLAIN, PLAIN_OWN};

const USUAL: u32 = 48_000;
/// How many random records stand beside the program.
const RECORDED_RANDOM: usize = 100;
/// The bytes of a last record that is not whole.
const REST: usize = 63;

/// The fixed records with every boundary, and `count` random ones.
pub fn fresh(count: u64, seed: u64) -> Vec<u8> {
    let mut random = Random::new(seed);
    let mut records = fixed();
    records.extend(of_patterns(&patterns(0..COUNT)));
    records.extend((0..count).map(|_| random::record(&mut random)));
    bytes(&records)
}

/// The records that stand beside the program, and a rest.
pub fn recorded() -> Vec<u8> {
    let mut random = Random::new(1);
    let mut records = fixed();
    records.extend(of_patterns(&patterns(some_boundaries())));
    records.extend((0..RECORDED_RANDOM).map(|_| random::short_record(&mut random)));
    let mut bytes = bytes(&records);
    bytes.extend(&plain(3).to_bytes()[..REST]);
    bytes
}

fn bytes(records: &[Record]) -> Vec<u8> {
    records
        .iter()
        .flat_map(|record| record.to_bytes())
        .collect()
}

/// What is written in full, of plain numbers.
fn plain(count: u32) -> Record {
    Record {
        rate: USUAL,
        count,
        lent: fitting(count),
        place: count / 2,
        own: PLAIN_OWN,
        patterns: PLAIN,
    }
}

/// As many bytes as a stem has.
fn fitting(count: u32) -> u32 {
    HEADER_BYTES as u32 + 2 * count
}

/// Each pattern once, twelve in a record.
fn of_patterns(all: &[u32]) -> Vec<Record> {
    let record = |few: &[u32]| {
        let pattern = |i: usize| few.get(i).copied().unwrap_or(0);
        let patterns = std::array::from_fn(pattern);
        let (place, own) = (PATTERNS as u32, pattern(PATTERNS));
        Record {
            place,
            own,
            patterns,
            lent: fitting(few.len() as u32) + 1,
            ..plain(few.len() as u32)
        }
    };
    all.chunks(PATTERNS + 1).map(record).collect()
}

fn patterns(boundaries: impl IntoIterator<Item = u32>) -> Vec<u32> {
    boundaries.into_iter().flat_map(beside).collect()
}

/// Those beside a power of two, the last ones, and every 331st.
fn some_boundaries() -> Vec<u32> {
    let powers = (0..15).flat_map(|bit| [(1 << bit) - 1, 1 << bit, (1 << bit) + 1]);
    let mut boundaries: Vec<u32> = powers.chain((0..COUNT).step_by(331)).collect();
    boundaries.extend([COUNT - 2, COUNT - 1]);
    boundaries.sort_unstable();
    boundaries.dedup();
    boundaries
}

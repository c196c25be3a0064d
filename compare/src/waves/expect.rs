//! The lines that `crates/waves` has to print, from the second implementation of `write`.

use super::record::{records, Record, RECORD_BYTES};
use super::write::{write, BAD_PARAM, DONE, MOST_SAMPLES, NO_ROOM};
use crate::difference;
use std::fmt;

/// More samples or more lent bytes are not tried.
pub const MOST_TRIED: u32 = MOST_SAMPLES as u32 + 1;
pub const MOST_LENT: u32 = 2_097_204;
const PASSED_OVER: &str = "-\n";
/// What each lent byte is before a call.
const LENT: u8 = 165;

/// What the records went through, for a reader to judge what they tried.
#[derive(Default)]
pub struct Tried {
    written: usize,
    bad_params: usize,
    no_rooms: usize,
    passed_over: usize,
    /// Those that were written.
    samples: usize,
}

/// A line for each whole record.
pub fn text(input: &[u8], tried: &mut Tried) -> String {
    records(input).map(|record| line(&record, tried)).collect()
}

/// The answer, and the checksum of all lent bytes after the call.
fn line(record: &Record, tried: &mut Tried) -> String {
    if record.count > MOST_TRIED || record.lent > MOST_LENT {
        tried.passed_over += 1;
        return PASSED_OVER.to_string();
    }
    let mut out = vec![LENT; record.lent as usize];
    let answer = write(record.rate, &record.samples(), &mut out);
    tried.add(answer, record.count);
    format!("{answer} {:08x}\n", checksum(&out))
}

pub fn checksum(bytes: &[u8]) -> u32 {
    let step = |sum: u64, &byte: &u8| (sum * 1_000_003 + u64::from(byte)) % 4_294_967_291;
    bytes.iter().fold(0, step) as u32
}

/// How many records agree, or else the first that differs.
pub fn first_difference(input: &[u8], expected: &[u8], got: &[u8]) -> Result<String, String> {
    let whole = &input[..input.len() - input.len() % RECORD_BYTES];
    let count = difference::first(whole, RECORD_BYTES, expected, got)?;
    Ok(format!("{count} records agree"))
}

impl Tried {
    fn add(&mut self, answer: u32, count: u32) {
        match answer {
            DONE => {
                self.written += 1;
                self.samples += count as usize;
            }
            BAD_PARAM => self.bad_params += 1,
            NO_ROOM => self.no_rooms += 1,
            _ => {}
        }
    }
}

impl fmt::Display for Tried {
    fn fmt(&self, to: &mut fmt::Formatter) -> fmt::Result {
        let (written, bad_params, no_rooms) = (self.written, self.bad_params, self.no_rooms);
        writeln!(to, "answers 0:{written} 4:{bad_params} 9:{no_rooms}")?;
        writeln!(to, "passed over (-): {} records", self.passed_over)?;
        let records = written + bad_params + no_rooms + self.passed_over;
        writeln!(to, "total: {records} records, {} samples", self.samples)
    }
}

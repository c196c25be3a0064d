//! What the program `stem` has to leave for an input, from the second implementations of the calls and
//! of `write`; the calls are held against the ported Rust bit by bit wherever they are answered.

use crate::heard::played;
use crate::lists::expect::Carried;
use crate::lists::{refused, Tried, JOB_BYTES};
use crate::waves::{checksum, write, DONE, HEADER_BYTES};

const NO_LIST: u32 = 8;

/// A refusal's number goes to standard error, a file to standard output.
#[derive(Debug, PartialEq)]
pub enum Stem {
    Refused(u32),
    Written(Vec<u8>),
}

pub fn stem(input: &[u8]) -> Result<Stem, String> {
    let Some((rate, list)) = input.split_first_chunk() else {
        return Ok(Stem::Refused(NO_LIST));
    };
    if refused(list) {
        return Ok(Stem::Refused(NO_LIST));
    }
    let rate = u32::from_le_bytes(*rate);
    let samples = samples(Carried::start(), list)?;
    let mut file = vec![0; HEADER_BYTES + 2 * samples.len()];
    let answer = write(rate, &samples, &mut file);
    Ok(match answer {
        DONE => Stem::Written(file),
        _ => Stem::Refused(answer),
    })
}

/// What the records of a list left, by its bits, laid end to end; a refused one leaves nothing.
fn samples(mut carried: Carried, list: &[u8]) -> Result<Vec<u32>, String> {
    let mut samples = Vec::new();
    for (index, record) in list.chunks(JOB_BYTES).enumerate() {
        let left = played(&mut carried, record, |_| (), &mut Tried::default())
            .map_err(|told| format!("record {index}: {told}"))?;
        samples.extend(left.1.iter().map(|sample| sample.to_bits()));
    }
    Ok(samples)
}

/// The one line that a refusal has.
pub fn said(answer: u32) -> String {
    format!("{answer}\n")
}

/// A line for each input: a refusal's number, or the file's length and checksum.
pub fn lines(inputs: impl Iterator<Item = Vec<u8>>) -> Result<String, String> {
    let line = |(number, input): (usize, Vec<u8>)| {
        let stem = stem(&input).map_err(|e| format!("input {number}, {e}"))?;
        Ok(match stem {
            Stem::Refused(answer) => said(answer),
            Stem::Written(file) => format!("{} {:08x}\n", file.len(), checksum(&file)),
        })
    };
    inputs.enumerate().map(line).collect()
}

/// How many samples agree, or else the first byte in which two files differ.
pub fn first_difference(expected: &[u8], got: &[u8]) -> Result<String, String> {
    let count = expected.len().max(got.len());
    match (0..count).find(|&at| expected.get(at) != got.get(at)) {
        None => {
            let samples = expected.len().saturating_sub(HEADER_BYTES) / 2;
            Ok(format!("{samples} samples agree"))
        }
        Some(at) => {
            let shown = |byte: Option<&u8>| byte.map_or("(no byte)".to_string(), u8::to_string);
            Err(format!(
                "{} differs, of {} bytes expected and {} got\n  expected {}\n  got      {}",
                place(at),
                expected.len(),
                got.len(),
                shown(expected.get(at)),
                shown(got.get(at))
            ))
        }
    }
}

/// What stands at a byte of a file.
fn place(at: usize) -> String {
    match at.checked_sub(HEADER_BYTES) {
        None => format!("byte {at} of the header"),
        Some(past) => format!("byte {} of sample {}", past % 2, past / 2),
    }
}

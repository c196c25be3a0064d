//! The line for a call record, from the second implementation, which is held against the ported
//! Rust bit by bit wherever the call is answered.

use super::line::{buffer, canonical, line};
use super::model::{self, Outcome};
use super::original;
use super::record::{Asks, Record, LONGEST_TRIED};
use super::stats::Stats;
use super::Kinds;

/// What is printed for a kind that is not there, for a block that is too long to be tried, and for a
/// shape that is none.
const PASSED_OVER: &str = "-";

/// The line for one record. `number` is the record's place in its list, for the message where the
/// two implementations differ.
pub fn expect(
    number: usize,
    record: &Record,
    kinds: &Kinds,
    stats: &mut Stats,
) -> Result<String, String> {
    let is_asked = kinds.has(record.kind()) && record.asks() != Asks::Nothing;
    if !is_asked || record.length() > LONGEST_TRIED {
        stats.pass_over();
        return Ok(PASSED_OVER.to_string());
    }
    let mut samples = buffer(record);
    let outcome =
        held_call(record, &mut samples).map_err(|told| format!("record {number}: {told}"))?;
    match record.asks() {
        Asks::Render => stats.add(record.kind(), &samples, &outcome),
        _ => stats.add_other(record.kind(), &outcome),
    }
    Ok(line(record.asks(), &outcome, &samples))
}

/// Makes a record's call on a buffer, and again with the ported Rust where it is answered; an error
/// where the two differ.
pub fn held_call(record: &Record, samples: &mut [f32]) -> Result<Outcome, String> {
    let mut original_samples = samples.to_vec();
    let outcome = model::call(record, samples).ok_or("a kind or a shape without an oscillator")?;
    if outcome.answer == 0 {
        let original_words = original::call(record, &mut original_samples);
        hold(&outcome, samples, &original_words, &original_samples)
            .map_err(|difference| format!("MISMATCH in {difference}"))?;
    }
    Ok(outcome)
}

/// The first word or sample in which the two implementations differ; a NaN agrees with a NaN.
fn hold(
    outcome: &Outcome,
    samples: &[f32],
    original_words: &[u32],
    original_samples: &[f32],
) -> Result<(), String> {
    let differ = |what: &str, second: &[u32], original: &[u32]| {
        let pairs = second.iter().zip(original).enumerate();
        match pairs
            .into_iter()
            .find(|(_, (a, b))| canonical(**a) != canonical(**b))
        {
            Some((i, (a, b))) => Err(format!(
                "{what} {i}: second implementation {a:08x}, original {b:08x}"
            )),
            None if second.len() != original.len() => Err(format!("the number of {what}s")),
            None => Ok(()),
        }
    };
    let bits = |samples: &[f32]| -> Vec<u32> { samples.iter().map(|x| x.to_bits()).collect() };
    differ("sample", &bits(samples), &bits(original_samples))?;
    differ("state word", &outcome.words, original_words)
}

#[cfg(test)]
mod tests {
    use super::*;
    use crate::calls::model::Counts;

    fn outcome(words: &[u32]) -> Outcome {
        Outcome {
            answer: 0,
            index: 0,
            counts: Counts::default(),
            words: words.to_vec(),
            samples: Vec::new(),
        }
    }

    #[test]
    fn nan_agrees_with_nan_and_zero_differs_from_negative_zero() {
        let (nan, other) = (0x7fc0_0000, 0xff80_0001);
        let floats = [nan, other].map(f32::from_bits);
        assert!(hold(&outcome(&[nan]), &floats[..1], &[other], &floats[1..]).is_ok());
        assert!(hold(&outcome(&[]), &[0.0], &[], &[-0.0]).is_err());
    }

    #[test]
    fn a_word_a_sample_or_a_length_that_differs_is_told() {
        assert!(hold(&outcome(&[1]), &[], &[2], &[])
            .unwrap_err()
            .contains("state word 0"));
        let told = hold(&outcome(&[]), &[1.0, 2.0], &[], &[1.0, 3.0]).unwrap_err();
        assert!(told.contains("sample 1"), "{told}");
        assert!(hold(&outcome(&[1]), &[], &[1, 2], &[]).is_err());
    }
}

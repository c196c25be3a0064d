//! The buffer before a call, and the line that tells what the call left.

use super::model::Outcome;
use super::record::{Asks, Record, BUFFER_AT};

/// The bits that stand for every NaN, since which NaN an operation gives is left open.
const NAN: u32 = 0x7fc0_0000;

/// The buffer before a record's call: the bits that the record names in each sample, or else, in
/// sample i, (i mod 8 + 1) / 4.
pub fn buffer(record: &Record) -> Vec<f32> {
    let plain = |i: usize| (i % 8 + 1) as f32 / 4.0;
    let held = |i: usize| match record.word(BUFFER_AT) {
        0 => plain(i),
        bits => f32::from_bits(bits),
    };
    (0..record.length()).map(held).collect()
}

/// The same word for every NaN. The whole numbers and bools of a state are too small to look like
/// one.
pub fn canonical(word: u32) -> u32 {
    if f32::from_bits(word).is_nan() {
        NAN
    } else {
        word
    }
}

pub fn checksum(samples: &[f32]) -> u32 {
    let step = |sum: u64, sample: &f32| {
        (sum * 1_000_003 + u64::from(canonical(sample.to_bits()))) % 4_294_967_291
    };
    samples.iter().fold(0, step) as u32
}

/// Answer, index, cycles, rises, falls, cuts, late.
pub fn answer_and_counts(outcome: &Outcome) -> String {
    let counts = outcome.counts;
    format!(
        "{} {} {} {} {} {} {}",
        outcome.answer,
        outcome.index,
        counts.cycles,
        counts.rises,
        counts.falls,
        counts.cuts,
        counts.late()
    )
}

/// Answer, index, counts, state words, checksum. The state words of a refused call and of an empty
/// block are printed as given, those of another call than `render` as it left them.
pub fn line(asks: Asks, outcome: &Outcome, samples: &[f32]) -> String {
    let stored = asks == Asks::Render && outcome.answer == 0 && !samples.is_empty();
    let mut line = answer_and_counts(outcome);
    for &word in &outcome.words {
        let word = if stored { canonical(word) } else { word };
        line += &format!(" {word:08x}");
    }
    line + &format!(" {:08x}", checksum(samples))
}

#[cfg(test)]
mod tests {
    use super::*;
    use crate::calls::{model::call, record::SAW};

    #[test]
    fn the_checksum_follows_its_rule() {
        assert_eq!(checksum(&[]), 0);
        assert_eq!(checksum(&[0.25]), 0x3e80_0000);
        let two = (0x3e80_0000u64 * 1_000_003 + 0x3f00_0000) % 4_294_967_291;
        assert_eq!(u64::from(checksum(&[0.25, 0.5])), two);
        let nan = f32::from_bits(0xff80_0001);
        assert_eq!(checksum(&[nan]), NAN);
    }

    #[test]
    fn words_that_are_not_stored_are_printed_as_given() {
        let told = |asks: Asks, answer: usize, samples: &[f32]| {
            let mut outcome = call(&Record::of_kind(SAW), &mut []).unwrap();
            (outcome.answer, outcome.words) = (answer, vec![0xff80_0001]);
            line(asks, &outcome, samples)
        };
        let stored = told(Asks::Render, 0, &[0.0]);
        assert_eq!(stored, "0 0 0 0 0 0 0 7fc00000 00000000");
        let as_it_is = "0 0 0 0 0 0 0 ff800001 00000000";
        assert_eq!(told(Asks::Render, 0, &[]), as_it_is);
        assert_eq!(told(Asks::SetMasterPhase, 0, &[0.0]), as_it_is);
        assert_eq!(told(Asks::Init, 0, &[0.0]), as_it_is);
        let refused = told(Asks::Render, 3, &[0.0]);
        assert_eq!(refused, "3 0 0 0 0 0 0 ff800001 00000000");
    }

    #[test]
    fn the_buffer_counts_to_two_or_holds_what_is_named() {
        let mut record = Record::of_kind(5);
        record.set_length(9);
        assert_eq!(
            buffer(&record),
            [0.25, 0.5, 0.75, 1.0, 1.25, 1.5, 1.75, 2.0, 0.25]
        );
        record.set_float(BUFFER_AT, -3.5);
        assert_eq!(buffer(&record), [-3.5; 9]);
    }
}

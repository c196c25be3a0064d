//! The order of refusals, what is refused by 4, and what the recorded input shows.

use super::expect::{first_difference, lines, stem, Stem};
use super::make::{around_the_most, inputs, no_number, recorded};
use crate::heard;
use crate::lists::expect::text;
use crate::lists::framed::frame;
use crate::lists::make::fixed;
use crate::lists::{Tried, JOB_BYTES};

fn with_rate(rate: u32, list: &[u8]) -> Vec<u8> {
    [&rate.to_le_bytes(), list].concat()
}

fn answered(input: &[u8]) -> Stem {
    stem(input).unwrap()
}

fn file(input: &[u8]) -> Vec<u8> {
    match answered(input) {
        Stem::Written(file) => file,
        Stem::Refused(answer) => panic!("refused by {answer}"),
    }
}

#[test]
fn a_list_that_is_none_is_refused_before_a_bad_rate() {
    for bytes in 0..4 {
        assert_eq!(answered(&vec![1; bytes]), Stem::Refused(8), "{bytes} bytes");
    }
    for rate in [48_000, 0, 384_001] {
        for bytes in [1, 63, 65, 65_537, 65_600] {
            let input = with_rate(rate, &fixed::of_size(bytes));
            assert_eq!(answered(&input), Stem::Refused(8), "{rate}, {bytes} bytes");
        }
    }
    for rate in [0, 384_001, u32::MAX] {
        for list in [&[][..], &fixed::of_size(64), &[0; 64]] {
            assert_eq!(answered(&with_rate(rate, list)), Stem::Refused(4));
        }
    }
}

/// The example has 8 samples, a refused record, and 4 samples.
#[test]
fn refused_records_are_no_samples() {
    let example = fixed::example();
    let whole = file(&with_rate(44_100, &example.concat()));
    assert_eq!(whole.len(), 44 + 2 * (8 + 4));
    assert_eq!(
        whole,
        file(&with_rate(44_100, &[example[0], example[2]].concat()))
    );
    assert_eq!(whole[24..28], 44_100u32.to_le_bytes());
    let malformed = file(&with_rate(44_100, &[0; 3 * JOB_BYTES]));
    assert_eq!(malformed, file(&with_rate(44_100, &[])));
    assert_eq!(malformed.len(), 44);
}

/// The kind 6 starts at 48,000, whatever the rate.
#[test]
fn the_rate_changes_the_header_alone() {
    let list = &recorded()[4..];
    let one = file(&with_rate(8_000, list));
    for rate in [1, 48_000, 384_000] {
        let other = file(&with_rate(rate, list));
        assert_eq!(one[44..], other[44..]);
        assert_ne!(one[..44], other[..44]);
    }
}

#[test]
fn a_list_can_leave_a_nan_which_is_refused_by_4() {
    let jobs = no_number();
    let told =
        String::from_utf8(heard::texts(&frame(&jobs.concat()), &mut Tried::default()).unwrap());
    let last = told.unwrap().lines().nth(3).unwrap().to_string();
    assert_eq!(last, "3 0 0 0 1 0 0 0 1 7fc00000");
    assert_eq!(
        answered(&with_rate(48_000, &jobs.concat())),
        Stem::Refused(4)
    );
    let shorter = file(&with_rate(48_000, &jobs[..3].concat()));
    assert_eq!(shorter.len(), 44 + 2 * 3);
}

#[test]
fn the_most_samples_are_written_and_one_more_is_refused() {
    let answers = around_the_most().map(|list| answered(&with_rate(48_000, &list)));
    assert!(matches!(&answers[0], Stem::Written(file) if file.len() == 44 + 2 * 1_048_576));
    assert_eq!(answers[1..], [Stem::Refused(4), Stem::Refused(4)]);
}

/// Refusals by 7, 1, 4 and 5 stand among answered records of all kinds, and an empty one.
#[test]
fn the_recorded_input_has_every_kind_and_refusals() {
    let input = recorded();
    let text = text(&input[4..], &mut Tried::default()).unwrap();
    let answers: Vec<&str> = text
        .lines()
        .map(|line| line.split(' ').nth(1).unwrap())
        .collect();
    let refused: Vec<&str> = answers.iter().copied().filter(|&a| a != "0").collect();
    assert_eq!(refused, ["7", "1", "4", "5"]);
    let file = file(&input);
    assert_eq!(file[24..28], 44_100u32.to_le_bytes());
    assert!((600..1_000).contains(&file.len()), "{} bytes", file.len());
    let numbers = file[44..]
        .chunks(2)
        .map(|b| i16::from_le_bytes([b[0], b[1]]));
    let clipped = numbers.clone().filter(|number| number.abs() == 32_767);
    assert!(clipped.clone().count() > 10 && clipped.count() < numbers.count() / 3);
}

#[test]
fn inputs_reach_every_answer_and_a_seed_gives_the_same_again() {
    let told = lines(inputs(40, 2)).unwrap();
    for answer in ["8", "4"] {
        assert!(told.lines().filter(|&line| line == answer).count() > 10);
    }
    assert!(told.lines().filter(|line| line.len() > 8).count() > 60);
    let fixed = inputs(0, 0).count();
    assert!(inputs(3, 2)
        .skip(fixed)
        .eq(inputs(5, 2).skip(fixed).take(3)));
}

#[test]
fn the_first_byte_that_differs_is_told() {
    let file = file(&with_rate(8_000, &fixed::of_size(64)));
    let agreed = format!("{} samples agree", (file.len() - 44) / 2);
    assert_eq!(first_difference(&file, &file), Ok(agreed));
    assert_eq!(
        first_difference(&[], &[]),
        Ok("0 samples agree".to_string())
    );
    for (at, told) in [(5, "byte 5 of the header"), (49, "byte 1 of sample 2")] {
        let mut other = file.clone();
        other[at] ^= 1;
        assert!(first_difference(&file, &other)
            .unwrap_err()
            .starts_with(told));
        let cut = first_difference(&file, &file[..at]).unwrap_err();
        assert!(
            cut.starts_with(told) && cut.ends_with("got      (no byte)"),
            "{cut}"
        );
    }
}

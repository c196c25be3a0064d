//! The request's example, and what fixed and random records reach.

use super::boundaries::{beside, COUNT};
use super::expect::{text, MOST_LENT, MOST_TRIED};
use super::record::{records, Record, RECORD_BYTES};
use super::write::MOST_SAMPLES;
use super::{first_difference, fresh, recorded, Tried};
use std::collections::BTreeSet;

/// The line of each record.
fn lines(input: &[u8]) -> Vec<(Record, String)> {
    let text = text(input, &mut Tried::default());
    let lines = text.lines().map(str::to_string);
    records(input).zip(lines).collect()
}

/// The samples that were written.
fn written(input: &[u8]) -> BTreeSet<u32> {
    let lines = lines(input);
    let answered = lines.iter().filter(|(_, line)| line.starts_with("0 "));
    answered.flat_map(|(record, _)| record.samples()).collect()
}

#[test]
fn the_example_gives_its_two_lines() {
    let lines = lines(&recorded()[..2 * RECORD_BYTES]);
    let (first, second) = (lines[0].0, lines[1].0);
    assert_eq!((first.rate, first.count, first.lent), (48_000, 3, 52));
    assert_eq!(first.samples(), [0x3f80_0000, 0xbf80_0000, 0x3f00_0000]);
    assert_eq!(second, Record { lent: 49, ..first });
    let [first, second] = [&lines[0].1, &lines[1].1];
    assert_eq!([first, second], ["0 60a0a7fb", "9 4ed20e93"]);
}

#[test]
fn what_is_too_much_to_be_tried_has_a_line_of_its_own() {
    for (record, line) in lines(&recorded()) {
        let is_tried = record.count <= MOST_TRIED && record.lent <= MOST_LENT;
        assert_eq!(line != "-", is_tried, "{record:?}");
    }
}

#[test]
fn fresh_records_reach_every_boundary_on_both_sides_with_both_signs() {
    let written = written(&fresh(0, 0));
    for k in 0..COUNT {
        let beside = beside(k);
        assert!(beside.iter().all(|bits| written.contains(bits)), "{k}");
    }
}

/// An answer's number, and which records are answered by it.
type Cause<'a> = (&'a str, &'a dyn Fn(&Record) -> bool);

#[test]
fn the_recorded_records_reach_every_answer_by_each_cause() {
    let lines = lines(&recorded());
    let has_nan = |r: &Record| {
        r.samples()
            .iter()
            .any(|&bits| f32::from_bits(bits).is_nan())
    };
    let fits = |r: &Record| r.lent >= 44 + 2 * r.count;
    let causes: [Cause; 9] = [
        ("0", &|r| r.rate == 1 && r.lent == 44 + 2 * r.count),
        ("0", &|r| {
            r.rate == 384_000 && r.count == MOST_SAMPLES as u32
        }),
        ("0", &|r| r.count == 0 && r.lent > 44),
        ("4", &|r| r.rate == 0 && fits(r) && !has_nan(r)),
        ("4", &|r| r.rate == 384_001 && !fits(r) && !has_nan(r)),
        ("4", &|r| r.count == MOST_TRIED && fits(r) && !has_nan(r)),
        ("4", &|r| r.rate == 48_000 && fits(r) && has_nan(r)),
        ("9", &|r| r.count == MOST_SAMPLES as u32 && !fits(r)),
        ("9", &|r| r.count == 0 && r.lent == 43),
    ];
    for (i, (answer, test)) in causes.into_iter().enumerate() {
        let found = lines.iter().filter(|(r, line)| line != "-" && test(r));
        let answers: Vec<&str> = found.map(|(_, line)| &line[..1]).collect();
        assert!(!answers.is_empty(), "cause {i}");
        assert!(answers.iter().all(|&given| given == answer), "cause {i}");
    }
}

#[test]
fn the_recorded_records_have_every_sort_of_sample() {
    let written = written(&recorded());
    let count = |test: &dyn Fn(f32) -> bool| {
        let samples = written.iter().map(|&bits| f32::from_bits(bits));
        samples.filter(|&sample| test(sample)).count()
    };
    assert_eq!(count(&|x| x.abs() == 0.5), 2);
    assert_eq!(count(&|x| x == 0.0), 2);
    assert_eq!(count(&f32::is_infinite), 2);
    assert!(count(&|x| x.abs() > 1.0 && x.is_finite()) > 10);
    assert!(count(&|x| x.is_subnormal()) > 4);
    assert!(written.len() > 1_000, "{} samples", written.len());
}

#[test]
fn the_recorded_file_is_small_and_ends_with_a_record_that_is_not_whole() {
    let input = recorded();
    assert_eq!(input.len() % RECORD_BYTES, 63);
    assert!(input.len() < 40_000, "{} bytes", input.len());
    let large = records(&input).filter(|r| (1_000_000..=MOST_TRIED).contains(&r.count));
    assert_eq!(large.count(), 4);
    let text = text(&input, &mut Tried::default());
    let agreed = format!("{} records agree", text.lines().count());
    assert_eq!(
        first_difference(&input, text.as_bytes(), text.as_bytes()),
        Ok(agreed)
    );
}

#[test]
fn random_records_reach_every_answer_and_few_are_long() {
    let fixed = fresh(0, 0).len();
    let lines = lines(&fresh(4_000, 3)[fixed..]);
    let count = |test: &dyn Fn(&Record, &str) -> bool| {
        lines
            .iter()
            .filter(|(record, line)| test(record, line))
            .count()
    };
    assert!(count(&|_, line| line.starts_with('0')) > 2_000);
    assert!(count(&|_, line| line.starts_with('4')) > 300);
    assert!(count(&|_, line| line.starts_with('9')) > 300);
    assert!(count(&|r, _| r.count > 100_000) < 10);
    assert!(count(&|r, _| r.count > 3_000) > 10);
    assert!(fresh(10, 3) == fresh(12, 3)[..fixed + 10 * RECORD_BYTES]);
    assert!(fresh(10, 3) != fresh(10, 4));
}

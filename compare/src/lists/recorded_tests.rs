//! What the recorded lists show. A misreading of a record, or a wrong start, has to change a line.

use super::expect::{text, text_from, Carried};
use super::framed;
use super::job::{Job, JOB_BYTES};
use super::make::{changes, recorded, starts, ways};
use super::Tried;
use crate::calls::make::fields::{settings, state, Holds};
use crate::calls::record::*;
use crate::calls::Kinds;
use std::collections::BTreeSet;

fn texts(lists: &[Vec<u8>]) -> Vec<String> {
    let text = |list: &Vec<u8>| text(list, &mut Tried::default()).unwrap();
    lists.iter().map(text).collect()
}

/// The texts where each record of a kind is misread.
fn misread(kind: u8, lists: &[Vec<u8>], misreading: impl Fn(&mut Job)) -> Vec<String> {
    let misread = |list: &Vec<u8>| {
        let mut list = list.clone();
        let (jobs, _) = list.as_chunks_mut::<JOB_BYTES>();
        for job in jobs.iter_mut().filter(|job| job[0] == kind) {
            misreading(job);
        }
        list
    };
    texts(&lists.iter().map(misread).collect::<Vec<_>>())
}

/// The fields of each line behind the index, with the kind of its record.
fn answered() -> Vec<(u8, Vec<usize>)> {
    let lists = recorded::lists();
    let mut answered: Vec<(u8, Vec<usize>)> = Vec::new();
    for (list, text) in lists.iter().zip(texts(&lists)) {
        for (job, line) in list.chunks(JOB_BYTES).zip(text.lines()) {
            let fields = line.split(' ').map(|word| word.parse().unwrap());
            answered.push((job[0], fields.skip(1).collect()));
        }
    }
    answered.retain(|(_, fields)| !fields.is_empty());
    answered
}

#[test]
fn every_answer_that_a_kind_can_give_is_there() {
    let answered = answered();
    for kind in Kinds::all().list() {
        let of_kind = answered.iter().filter(|(of, _)| *of == kind);
        let answers: BTreeSet<usize> = of_kind.map(|(_, fields)| fields[0]).collect();
        let mut expected = BTreeSet::from([0, 1, 4, 6, 7]);
        match kind {
            NES => expected.insert(3),
            STRING => expected.insert(5),
            _ => true,
        };
        assert_eq!(answers, expected, "kind {kind}");
    }
    assert!(texts(&recorded::lists()).contains(&"8\n".to_string()));
}

#[test]
fn no_two_columns_are_the_same() {
    let answered = answered();
    for a in 0..7 {
        for b in 0..a {
            assert!(answered.iter().any(|(_, fields)| fields[a] != fields[b]));
        }
    }
    let most = |column: usize| answered.iter().map(|(_, fields)| fields[column]).max();
    for (column, what) in [(4, "falls"), (5, "cuts"), (6, "late")] {
        assert!(most(column) > Some(0), "{what}");
    }
}

#[test]
fn drifts_come_in_the_midst_of_a_block_and_at_its_end() {
    let indices: BTreeSet<usize> = answered()
        .into_iter()
        .map(|(_, fields)| fields[1])
        .collect();
    for index in [299, 672, 1023, 1299, 2164, 2899, 4095] {
        assert!(indices.contains(&index), "{index} of {indices:?}");
    }
    for kind in Kinds::all().list() {
        for jobs in ways::drifts(kind) {
            let answers = texts(&[jobs.concat()])[0].clone();
            let starts: Vec<&str> = answers.lines().map(|line| &line[2..3]).collect();
            assert_eq!(starts, ["0", "0", "6"], "kind {kind}");
        }
    }
}

#[test]
fn a_refusal_by_each_number_stands_among_answered_records_of_all_kinds() {
    for kind in Kinds::all().list() {
        for (number, jobs) in recorded::refused(kind) {
            let text = &texts(&[recorded::among_all(&jobs)])[0];
            let answers: Vec<&str> = text.lines().map(|l| l.split(' ').nth(1).unwrap()).collect();
            let is_refused = |i: &usize| answers[*i] != "0";
            let refused: Vec<usize> = (0..answers.len()).filter(is_refused).collect();
            let at = 2 * usize::from(Kinds::COUNT) + jobs.len() - 1;
            assert_eq!(refused, [at], "kind {kind}");
            assert_eq!(answers[at], number.to_string(), "kind {kind}");
        }
    }
}

/// A setting that changes samples alone: no count depends on it.
fn only_heard(kind: u8, at: usize) -> bool {
    match at {
        FREQUENCY_AT | WIDTH_OR_SHAPE_AT | BITS_AT => false,
        MASTER_OR_GAIN_AT => kind == STRING,
        _ => true,
    }
}

fn swap(job: &mut Job, a: usize, b: usize) {
    for byte in 0..4 {
        job.swap(a + byte, b + byte);
    }
}

#[test]
fn two_fields_that_change_places_show_in_the_counts() {
    for kind in Kinds::all().list().into_iter().filter(|&k| k != NES) {
        let lists = changes::lists(kind);
        let right = texts(&lists);
        let fields = settings(kind);
        for (i, a) in fields.iter().enumerate() {
            for b in &fields[..i] {
                let wrong = misread(kind, &lists, |job| swap(job, a.at, b.at));
                let heard = only_heard(kind, a.at) && only_heard(kind, b.at);
                assert_eq!(right == wrong, heard, "kind {kind}, {} and {}", a.at, b.at);
                let lines = || right.iter().chain(&wrong).flat_map(|text| text.lines());
                assert!(lines().all(|line| line[2..].starts_with("0 ")));
            }
        }
    }
}

#[test]
fn settings_that_are_only_heard_show_by_their_range() {
    for kind in [SHAPE, STRING] {
        let lists = recorded::of_kind(kind);
        let right = texts(&lists);
        let range_of_its_own = |at: usize| at < REGISTRATION_AT;
        let heard = settings(kind).into_iter().map(|field| field.at);
        let heard: Vec<usize> = heard.filter(|&at| only_heard(kind, at)).collect();
        for (i, &a) in heard.iter().enumerate() {
            for &b in heard[..i].iter().filter(|&&b| range_of_its_own(b)) {
                let wrong = misread(kind, &lists, |job| swap(job, a, b));
                assert!(wrong != right, "kind {kind}, {a} and {b}");
            }
        }
    }
}

#[test]
fn each_byte_of_each_field_is_looked_at() {
    for kind in Kinds::all().list() {
        let lists = recorded::of_kind(kind);
        let right = texts(&lists);
        for field in settings(kind) {
            for at in field.at..field.at + 4 {
                let wrong = misread(kind, &lists, |job| job[at] = 0);
                assert!(wrong != right, "kind {kind}, byte {at}");
            }
        }
        for at in [LENGTH_AT, LENGTH_AT + 1] {
            assert!(
                misread(kind, &lists, |job| job[at] = 0) != right,
                "byte {at}"
            );
        }
        assert!(misread(kind, &lists, |job| job.swap(LENGTH_AT, LENGTH_AT + 1)) != right);
    }
}

#[test]
fn flags_that_change_places_show_in_the_counts() {
    let lists = changes::lists(SHAPE);
    let swapped = |job: &mut Job| job[1] = job[1] >> 1 & 1 | (job[1] & 1) << 1;
    assert!(misread(SHAPE, &lists, swapped) != texts(&lists));
    assert!(misread(SHAPE, &lists, |job| job[1] &= 2) != texts(&lists));
    assert!(misread(SHAPE, &lists, |job| job[1] |= 1) != texts(&lists));
}

/// A shape that is read as another shows in the counts, save where no count depends on it: impulse
/// train and saw count alike, and so do the squares that have a width.
#[test]
fn shapes_that_change_places_show_in_the_counts() {
    let lists = changes::lists(CLASSIC);
    let right = texts(&lists);
    let alike: [&[u8]; 2] = [&[0, 1], &[4, 5, 6]];
    for one in 0..=MOST_SHAPE {
        for other in (0..=MOST_SHAPE).filter(|&other| other != one) {
            let misreading = |job: &mut Job| {
                if job[1] == one {
                    job[1] = other;
                }
            };
            let counted_alike = alike
                .iter()
                .any(|shapes| shapes.contains(&one) && shapes.contains(&other));
            let same = misread(CLASSIC, &lists, misreading) == right;
            assert_eq!(same, counted_alike, "{one} as {other}");
        }
    }
}

/// The state words that counts and answers go by, for each kind.
const COUNTED: [(u8, &[usize]); 6] = [
    (SHAPE, &[0, 1, 4, 5, 6, 7]),
    (SAW, &[0, 3, 4, 5]),
    (SUPER_SQUARE, &[0, 1, 3, 4, 5]),
    (NES, &[0, 2, 4]),
    (STRING, &[0, 2, 3]),
    (CLASSIC, &[0, 4, 5, 6]),
];

/// Starts that differ from this one in a bit, or from 0.0 by a power of two.
fn wrong_starts(holds: Holds, start: u32) -> Vec<u32> {
    match holds {
        Holds::UpTo(..) | Holds::Below(..) if start == 0 => {
            (1..=24).map(|n| 2f32.powi(-n).to_bits()).collect()
        }
        Holds::Flag => vec![1 - start],
        _ => (0..32).map(|bit| start ^ (1 << bit)).collect(),
    }
}

#[test]
fn a_wrong_start_shows() {
    for (kind, counted) in COUNTED {
        let lists = starts::lists(kind);
        let right = texts(&lists);
        for &word in counted {
            let start = Carried::start().0[usize::from(kind)][word];
            for wrong in wrong_starts(state(kind)[word].holds, start) {
                let text = |list: &Vec<u8>| {
                    let mut carried = Carried::start();
                    carried.0[usize::from(kind)][word] = wrong;
                    text_from(carried, list, &mut Tried::default()).unwrap()
                };
                let texts: Vec<String> = lists.iter().map(text).collect();
                assert!(texts != right, "kind {kind}, word {word}: {wrong:08x}");
            }
        }
    }
}

#[test]
fn the_stream_is_small_enough_to_be_run_at_each_check_and_ends_with_a_list_cut_short() {
    let lists = recorded::lists();
    let stream = recorded::stream();
    assert_eq!(framed::lists(&stream), lists);
    let whole: usize = lists.iter().map(|list| framed::frame(list).len()).sum();
    assert!(whole < stream.len() && stream.len() < 1_500_000);
    let mut tried = Tried::default();
    framed::texts(&stream, &mut tried).unwrap();
    assert!(tried.calls.samples() < 500_000);
}

//! The request's example, the boundaries, each damage, and the laws that a list's lines keep to.

use super::expect::text;
use super::job::{Job, JOB_BYTES};
use super::make::damage::{malformed, set_length, set_word, unused, with_steps};
use super::make::{fixed, lists, sound};
use super::{refused, Tried};
use crate::calls::record::*;
use crate::calls::Kinds;

fn printed(list: &[u8]) -> String {
    text(list, &mut Tried::default()).unwrap()
}

/// The fields of each line behind the index, which is held against its place.
fn lines(list: &[u8]) -> Vec<Vec<usize>> {
    let text = printed(list);
    let lines = text.lines().enumerate().map(|(index, line)| {
        let fields: Vec<usize> = line.split(' ').map(|word| word.parse().unwrap()).collect();
        assert_eq!((fields.len(), fields[0]), (8, index));
        fields[1..].to_vec()
    });
    lines.collect()
}

fn answers(list: &[u8]) -> Vec<usize> {
    lines(list).iter().map(|fields| fields[0]).collect()
}

/// The answer to a record that stands alone.
fn answer(job: &Job) -> usize {
    answers(job)[0]
}

#[test]
fn the_example_gives_its_three_lines() {
    let expected = "0 0 0 1 7 0 0 0\n1 5 0 0 0 0 0 0\n2 0 0 0 1 0 0 0\n";
    assert_eq!(printed(&fixed::example().concat()), expected);
}

#[test]
fn boundaries_of_the_input() {
    assert_eq!(printed(&[]), "");
    for size in [1, 63, 65, 127, 65_535, 65_537, 65_599, 65_600, 70_000] {
        assert_eq!(printed(&fixed::of_size(size)), "8\n", "{size} bytes");
    }
    for size in [64, 128, 65_472, 65_536] {
        let answers = answers(&fixed::of_size(size));
        assert_eq!(answers, vec![0; size / JOB_BYTES], "{size} bytes");
    }
}

#[test]
fn each_damage_answers_7_and_the_list_goes_on_as_if_it_were_not_there() {
    for kind in Kinds::all().list() {
        let damaged = malformed(kind);
        let mut undamaged = vec![sound(kind); damaged.len().min(512)].concat();
        for list in fixed::between_sound_ones(kind, &damaged) {
            let lines = lines(&list);
            undamaged.truncate(list.len() / 2);
            for (i, line) in self::lines(&undamaged).iter().enumerate() {
                assert_eq!(
                    lines[2 * i],
                    [7, 0, 0, 0, 0, 0, 0],
                    "kind {kind}, damage {i}"
                );
                assert_eq!(&lines[2 * i + 1], line);
            }
        }
    }
}

#[test]
fn every_kind_byte() {
    let answers = answers(&fixed::every_kind_byte().concat());
    assert_eq!(answers[..7], [7, 4, 0, 0, 7, 0, 0]);
    assert_eq!(answers[7..], [7; 249]);
}

#[test]
fn flags_step_counts_and_unused_bytes() {
    for (kind, most) in [(SHAPE, 3), (SAW, 0), (CLASSIC, 7)] {
        for flags in 0..=255 {
            let mut job = sound(kind);
            job[1] = flags;
            let expected = if flags > most { 7 } else { 0 };
            assert_eq!(answer(&job), expected, "kind {kind}, flags {flags}");
        }
    }
    for bits in 0..32 {
        let expected = if (1..=16).contains(&bits) { 0 } else { 7 };
        assert_eq!(answer(&with_steps(1 << bits)), expected, "{bits} bits");
    }
    assert_eq!(
        [0, 3, 24, 65_537].map(with_steps).map(|j| answer(&j)),
        [7; 4]
    );
    // As many bytes as the request's table leaves over for each kind.
    let counts = Kinds::all().list().into_iter().map(|k| unused(k).len());
    assert_eq!(counts.collect::<Vec<_>>(), [40, 49, 53, 53, 25, 52]);
}

#[test]
fn block_lengths() {
    for kind in Kinds::all().list() {
        for (length, expected) in [(0, 0), (1, 0), (4096, 0), (4097, 1), (65_535, 1)] {
            let mut job = sound(kind);
            set_length(&mut job, length);
            let line = &lines(&job)[0];
            assert_eq!(line[0], expected, "kind {kind}, {length} samples");
            assert!(line[0] == 0 && length > 0 || line[1..] == [0; 6]);
        }
    }
}

#[test]
fn what_is_no_number_is_a_bad_parameter_and_no_bad_record() {
    for kind in Kinds::all().list() {
        for word in [0x7fc0_0000, 0xff80_0001, 0x7f80_0000, 0xff80_0000] {
            let mut job = sound(kind);
            set_word(&mut job, FREQUENCY_AT, word);
            assert_eq!(answer(&job), 4, "kind {kind}");
        }
        let ends = fixed::at_ends(kind).concat();
        assert!(!answers(&ends).contains(&7), "kind {kind}");
    }
    for (gain, expected) in [(-0.0f32, 0), (4.0, 0), (4.0f32.next_up(), 4)] {
        let mut job = sound(STRING);
        set_word(&mut job, MASTER_OR_GAIN_AT, gain.to_bits());
        assert_eq!(answer(&job), expected, "gain {gain}");
    }
}

#[test]
fn of_several_faults_the_first_counts() {
    for kind in Kinds::all().list() {
        let faults = fixed::faults(kind);
        let answers = answers(&fixed::several_faults(kind).concat());
        let choices = 1 << faults.len();
        assert_eq!(answers.len(), 2 * 2 * choices);
        for (i, pair) in answers.chunks(2).enumerate() {
            let choice = i % choices;
            let first = faults
                .iter()
                .enumerate()
                .find(|(k, _)| choice >> k & 1 == 1);
            let expected = first.map_or(0, |(_, fault)| usize::from(fault.0));
            assert_eq!(pair, [0, expected], "kind {kind}, choice {choice}");
        }
    }
}

#[test]
fn drifts_are_reached_from_the_start() {
    for kind in Kinds::all().list() {
        let lines = lines(&fixed::drifting(kind).concat());
        let drift = &lines[2];
        assert_eq!(drift[..], [6, 4095, 0, 0, 0, 0, 0], "kind {kind}");
    }
}

#[test]
fn a_step_of_a_deeper_call_is_a_bad_state() {
    let list = [65_536, 2, 65_536].map(with_steps).concat();
    assert_eq!(answers(&list), [0, 3, 0]);
}

/// Some of the lists that are made, the random ones among them.
fn some_lists() -> impl Iterator<Item = Vec<u8>> {
    lists(150, 2).filter(|list| !refused(list) && list.len() < 400 * JOB_BYTES)
}

#[test]
fn leaving_refused_records_out_changes_no_other_line() {
    for list in some_lists() {
        let all = lines(&list);
        let answered = |i: &usize| all[*i][0] == 0;
        let kept: Vec<usize> = (0..all.len()).filter(answered).collect();
        let part = |i: &usize| list[i * JOB_BYTES..][..JOB_BYTES].to_vec();
        let shorter: Vec<u8> = kept.iter().flat_map(part).collect();
        let expected: Vec<Vec<usize>> = kept.iter().map(|&i| all[i].clone()).collect();
        assert_eq!(lines(&shorter), expected);
    }
}

#[test]
fn each_kind_carries_a_state_of_its_own() {
    for list in some_lists() {
        let all = lines(&list);
        for kind in Kinds::all().list() {
            let records = list.chunks(JOB_BYTES).zip(&all);
            let of_kind: Vec<_> = records.filter(|(job, _)| job[0] == kind).collect();
            let alone: Vec<u8> = of_kind.iter().flat_map(|(job, _)| job.to_vec()).collect();
            let expected: Vec<Vec<usize>> = of_kind.iter().map(|&(_, l)| l.clone()).collect();
            assert_eq!(lines(&alone), expected);
        }
    }
    // A state that is not carried would give the same line again and again.
    for kind in Kinds::all().list() {
        let lines = lines(&vec![sound(kind); 8].concat());
        assert!(lines.iter().any(|line| line != &lines[0]), "kind {kind}");
    }
}

//! What the recorded lists show. A record that is handed to its call in a wrong way has to change a
//! line.

use super::expect::text;
use super::make::lists;
use crate::calls::record::*;
use crate::calls::Kinds;
use crate::lists::{self, refused, Tried, JOB_BYTES};
use std::collections::BTreeSet;

fn texts(handing: impl Fn(&mut Record)) -> Vec<String> {
    let text = |list: &Vec<u8>| text(list, &handing, &mut Tried::default()).unwrap();
    lists().iter().map(text).collect()
}

fn swap(call: &mut Record, one: usize, other: usize) {
    let (first, second) = (call.word(one), call.word(other));
    call.set_word(one, second);
    call.set_word(other, first);
}

/// Each changes the calls of one kind alone.
fn wrong_ways() -> Vec<(u8, &'static str, fn(&mut Record))> {
    vec![
        (SHAPE, "frequency and master", |c| {
            swap(c, FREQUENCY_AT, MASTER_OR_GAIN_AT)
        }),
        (SHAPE, "width and waveshape", |c| {
            swap(c, WIDTH_OR_SHAPE_AT, WAVESHAPE_AT)
        }),
        (SHAPE, "no phase modulation", |c| {
            c.set_float(PHASE_MODULATION_AT, 0.0)
        }),
        (SHAPE, "phase modulation negated", |c| {
            c.set_float(PHASE_MODULATION_AT, -c.float(PHASE_MODULATION_AT))
        }),
        (SHAPE, "no sync", |c| c.set_flags(c.0[1] & 2)),
        (SHAPE, "no phase output", |c| c.set_flags(c.0[1] & 1)),
        (SHAPE, "flags swapped", |c| {
            c.set_flags((c.0[1] & 1) << 1 | c.0[1] >> 1)
        }),
        (SAW, "width and waveshape", |c| {
            swap(c, WIDTH_OR_SHAPE_AT, WAVESHAPE_AT)
        }),
        (SAW, "no waveshape", |c| c.set_float(WAVESHAPE_AT, 0.0)),
        (SUPER_SQUARE, "frequency and shape", |c| {
            swap(c, FREQUENCY_AT, WIDTH_OR_SHAPE_AT)
        }),
        (NES, "one bit more", |c| c.set_word(BITS_AT, c.bits() + 1)),
        (CLASSIC, "frequency and width", |c| {
            swap(c, FREQUENCY_AT, WIDTH_OR_SHAPE_AT)
        }),
        (CLASSIC, "half a cycle for the width", |c| {
            c.set_float(WIDTH_OR_SHAPE_AT, 0.5)
        }),
        (STRING, "gain for frequency", |c| {
            swap(c, FREQUENCY_AT, MASTER_OR_GAIN_AT)
        }),
        (STRING, "no gain", |c| c.set_float(MASTER_OR_GAIN_AT, 1.0)),
        (STRING, "registration reversed", |c| {
            for i in 0..3 {
                swap(c, REGISTRATION_AT + 4 * i, REGISTRATION_AT + 4 * (6 - i));
            }
        }),
    ]
}

#[test]
fn a_record_that_is_handed_over_in_a_wrong_way_changes_a_line() {
    let right = texts(|_| ());
    for (kind, what, wrong) in wrong_ways() {
        let got = texts(|call| {
            if call.kind() == kind {
                wrong(call);
            }
        });
        assert!(got != right, "kind {kind}, {what}");
    }
}

#[test]
fn two_entries_of_the_registration_in_each_others_place_change_a_line() {
    let right = texts(|_| ());
    for i in 0..6 {
        let got = texts(|call| {
            if call.kind() == STRING {
                swap(call, REGISTRATION_AT + 4 * i, REGISTRATION_AT + 4 * (i + 1));
            }
        });
        assert!(got != right, "entries {i} and {}", i + 1);
    }
}

#[test]
fn a_shape_that_is_handed_over_as_another_changes_a_line() {
    let right = texts(|_| ());
    for one in 0..=MOST_SHAPE {
        for other in (0..=MOST_SHAPE).filter(|&other| other != one) {
            let got = texts(|call| {
                if call.kind() == CLASSIC && call.shape() == one {
                    call.set_flags(other);
                }
            });
            assert!(got != right, "shape {one} as {other}");
        }
    }
}

#[test]
fn each_word_of_the_classics_start_is_heard() {
    let right = texts(|_| ());
    let start = crate::calls::start(CLASSIC, true);
    for word in 0..start.len() {
        let mut wrong = start.clone();
        wrong[word] = match wrong[word] {
            0 => f32::powi(2.0, -10).to_bits(),
            1 => 0, // `high`
            float => float + 1,
        };
        let got = texts(|call| {
            if call.kind() == CLASSIC && call.state_words() == start {
                call.set_state_words(&wrong);
            }
        });
        assert!(got != right, "word {word}");
    }
}

#[test]
fn a_state_that_is_not_carried_changes_a_line() {
    let right = texts(|_| ());
    for kind in Kinds::all().list() {
        let start = crate::calls::start(kind, true);
        let got = texts(|call| {
            if call.kind() == kind {
                call.set_state_words(&start);
            }
        });
        assert!(got != right, "kind {kind}");
    }
}

#[test]
fn a_line_begins_with_what_the_renderer_prints_and_some_crossings_are_late() {
    let mut late = 0;
    for (list, text) in lists().iter().zip(texts(|_| ())) {
        let printed = lists::expect::text(list, &mut Tried::default()).unwrap();
        assert_eq!(text.lines().count(), printed.lines().count());
        for (line, begin) in text.lines().zip(printed.lines()) {
            let rest = line.strip_prefix(begin).unwrap();
            let further = rest.split_whitespace().count();
            assert_eq!(further, if refused(list) { 0 } else { 2 });
            late += u32::from(begin.split(' ').nth(7).is_some_and(|late| late != "0"));
        }
    }
    assert!(late >= 6, "{late} records with late crossings");
}

#[test]
fn each_kind_is_answered_and_refused_by_each_number_that_is_asked_for() {
    let mut found: [BTreeSet<String>; Kinds::COUNT as usize + 1] = Default::default();
    let mut records = 0;
    for (list, text) in lists().iter().zip(texts(|_| ())) {
        if refused(list) {
            assert_eq!(text, "8\n");
            continue;
        }
        for (job, line) in list.chunks(JOB_BYTES).zip(text.lines()) {
            let answer = line.split(' ').nth(1).unwrap();
            found[usize::from(job[0])].insert(answer.to_string());
            records += 1;
        }
    }
    for kind in Kinds::all().list() {
        let mut asked = vec!["0", "1", "4", "7"];
        if kind == STRING {
            asked.insert(3, "5");
        }
        assert_eq!(
            found[usize::from(kind)].iter().collect::<Vec<_>>(),
            asked,
            "kind {kind}"
        );
    }
    assert!(records <= 200, "{records} records");
}

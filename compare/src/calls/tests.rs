//! The request's figures, and the laws that the counts and states keep to.

use super::line::buffer;
use super::make::{drifting, drifts::drifts, fields::frequencies, figures, fixed::plain};
use super::model::{self, Counts, Outcome};
use super::record::*;
use super::{expect::expect, stats::Stats, Kinds};

fn call(record: &Record) -> Outcome {
    model::call(record, &mut buffer(record)).unwrap()
}

fn counts(cycles: u32, rises: u32, falls: u32, cuts: u32) -> Counts {
    Counts {
        cycles,
        rises,
        falls,
        cuts,
        ..Counts::default()
    }
}

#[test]
fn p6_slave_factor() {
    for (shape, factor) in [(0.5, 1.0), (1.0, 5.0)] {
        let outcome = call(&figures::slave_factor(shape));
        assert_eq!(f32::from_bits(outcome.words[5]), 0.03125 * factor);
    }
}

#[test]
fn p8_one_cycle_and_phase_an_eighth() {
    let outcome = call(&figures::master_wraps(SUPER_SQUARE)[0]);
    assert_eq!((outcome.answer, outcome.counts.cycles), (0, 1));
    assert_eq!(f32::from_bits(outcome.words[0]), 0.125);
    // The reset time is 0.5, and the slave starts again with that part of its step.
    assert_eq!(f32::from_bits(outcome.words[1]), 0.5 * 0.25);
}

#[test]
fn p9_rise_above_1_then_wrap() {
    let mut record = figures::rise_above_one();
    let outcome = call(&record);
    assert_eq!(outcome.counts, counts(1, 1, 1, 0));
    assert_eq!(f32::from_bits(outcome.words[0]), 0.375);
    record.set_length(1);
    let outcome = call(&record);
    assert_eq!(outcome.counts, counts(0, 1, 0, 0));
    assert_eq!(f32::from_bits(outcome.words[0]), 1.125);
}

#[test]
fn p10_rise_fall_rise() {
    let outcome = call(&figures::rise_fall_rise());
    assert_eq!((outcome.answer, outcome.double_rises()), (0, 1));
}

#[test]
fn drift_at_4095() {
    let figure = &drifts(SAW)[0];
    assert_eq!(figure.float(state_at(4)), 12_290_525.0 / 67_108_864.0);
    let outcome = call(figure);
    assert_eq!((outcome.answer, outcome.index), (6, 4095));
    assert_eq!(outcome.counts, Counts::default());
    assert_eq!(outcome.words, figure.state_words());
}

#[test]
fn every_drift_is_one_and_its_neighbour_is_none() {
    for kind in Kinds::all().list() {
        for pair in drifts(kind).chunks(2) {
            let (drift, neighbour) = (call(&pair[0]), call(&pair[1]));
            assert_eq!((drift.answer, neighbour.answer), (6, 0), "kind {kind}");
            assert!(drift.index == 0 || drift.index == pair[0].length() - 1);
        }
    }
}

#[test]
fn a_call_is_made_to_drift_at_every_index_from_68_on() {
    let records = drifting(2, 1);
    assert!(records.iter().all(|record| call(record).answer == 6));
    let at = |record: &Record| call(record).index;
    let indexes: std::collections::BTreeSet<usize> = records.iter().map(at).collect();
    assert!((68..4096).all(|index| indexes.contains(&index)));
}

#[test]
fn the_renderers_example() {
    assert_eq!(call(&figures::renderer_nes()).counts, counts(1, 7, 0, 0));
    assert_eq!(call(&figures::renderer_saw()).counts, counts(0, 1, 0, 0));
}

#[test]
fn string_ends() {
    let with_frequency = |frequency: f32| {
        let mut record = plain(STRING);
        record.set_float(FREQUENCY_AT, frequency);
        call(&record).answer
    };
    assert_eq!(with_frequency(0.5), 0);
    assert_eq!(with_frequency(0.5f32.next_up()), 5);
    assert_eq!(with_frequency(1.0), 5);
    assert_eq!(with_frequency(1.0f32.next_up()), 4);
    for (count, answer) in [(6, 2), (7, 0), (8, 2)] {
        let mut record = plain(STRING);
        record.set_word(REGISTRATION_COUNT_AT, count);
        assert_eq!(call(&record).answer, answer);
    }
}

#[test]
fn block_lengths() {
    for kind in Kinds::all().list() {
        let mut record = plain(kind);
        for (length, answer) in [(0, 0), (4096, 0), (4097, 1)] {
            record.set_length(length);
            assert_eq!(call(&record).answer, answer);
        }
        record.set_length(0);
        assert_eq!(call(&record).words, record.state_words());
    }
}

#[test]
fn nes_bits_outside_are_read_as_16_for_the_state() {
    let answer = |bits: u32, step: u32| {
        let mut record = plain(NES);
        record.set_word(BITS_AT, bits);
        record.set_word(state_at(2), step);
        call(&record).answer
    };
    assert_eq!(
        [answer(4, 15), answer(4, 16), answer(4, u32::MAX)],
        [0, 3, 3]
    );
    assert_eq!([answer(17, 65_535), answer(17, 65_536)], [4, 3]);
    assert_eq!([answer(0, 65_535), answer(0, 65_536)], [4, 3]);
    assert_eq!(answer(1, 2), 3);
}

/// The wraps of the phase and the changes of `high` or step that one sample's states show.
fn read_off(record: &Record, before: &[u32], after: &[u32]) -> (u32, u32) {
    let went_back = |word: usize| f32::from_bits(after[word]) < f32::from_bits(before[word]);
    let rose = |word: usize| u32::from(before[word] < after[word]);
    match record.kind() {
        SHAPE if record.sync() => (u32::from(went_back(0)), 0),
        // A narrow pulse can rise twice, so only the wraps are read off.
        SHAPE => (u32::from(went_back(1)), 0),
        SUPER_SQUARE => (u32::from(went_back(0)), 0),
        SAW => (u32::from(went_back(0)), rose(3)),
        _ => (u32::from(went_back(0)), u32::from(before[2] != after[2])),
    }
}

/// Under steady settings a block is the same as its samples one by one, so the ported Rust itself
/// shows when its phase wraps.
#[test]
fn counts_are_those_that_the_originals_states_show() {
    for kind in Kinds::all().list() {
        for (frequency, flags) in [(0.25, 0), (0.21, 1), (0.013, 2), (0.0625, 3)] {
            let mut record = plain(kind);
            record.set_flags(flags);
            for &(word, setting) in frequencies(kind) {
                record.set_float(setting, frequency);
                record.set_float(state_at(word), frequency);
            }
            if kind == STRING {
                record.set_float(FREQUENCY_AT, frequency / 8.0);
            }
            let mut one = record;
            one.set_length(1);
            let (mut cycles, mut rises) = (0, 0);
            for _ in 0..400 {
                let after = super::original::render(&one, &mut [0.0]);
                let (wraps, rose) = read_off(&one, &one.state_words(), &after);
                cycles += wraps;
                rises += rose;
                one.set_state_words(&after);
            }
            record.set_length(400);
            let counts = call(&record).counts;
            assert_eq!(
                counts.cycles, cycles,
                "cycles of kind {kind} at {frequency}"
            );
            if matches!(kind, SAW | NES | STRING) {
                assert_eq!(counts.rises, rises, "rises of kind {kind} at {frequency}");
            }
        }
    }
}

#[test]
fn a_state_that_a_call_left_is_valid() {
    for record in super::make::records(4000, 4, &Kinds::all()) {
        let is_rendered = Kinds::all().has(record.kind()) && record.asks() == Asks::Render;
        if record.length() > LONGEST_TRIED || !is_rendered {
            continue;
        }
        let outcome = call(&record);
        if outcome.answer == 0 {
            let mut after = record;
            after.set_state_words(&outcome.words);
            after.set_length(0);
            assert_eq!(call(&after).answer, 0);
        }
    }
}

#[test]
fn both_implementations_agree_and_every_line_has_its_fields() {
    let mut stats = Stats::default();
    for (number, record) in super::make::records(4000, 5, &Kinds::all())
        .iter()
        .enumerate()
    {
        let line = expect(number, record, &Kinds::all(), &mut stats).unwrap();
        let is_none = state_word_count(record.kind()) == 0 || record.asks() == Asks::Nothing;
        let passed_over = record.length() > LONGEST_TRIED || is_none;
        let fields = if passed_over {
            1
        } else {
            8 + state_word_count(record.kind())
        };
        assert_eq!(line.split(' ').count(), fields);
    }
}

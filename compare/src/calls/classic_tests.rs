//! The classic oscillator: what each shape counts and keeps, where a width that drifts is refused, and
//! the calls that are no `render`.

use super::line::buffer;
use super::make::fixed::plain;
use super::model::{self, Outcome};
use super::record::*;
use super::{expect::expect, original, stats::Stats, Kinds};

/// The shapes by what they have.
const WITHOUT_WIDTH: [u8; 2] = [2, 7];
const WITHOUT_EDGES: [u8; 2] = [0, 1];
/// State words.
const PHASE: usize = 0;
const HIGH: usize = 4;
const WIDTH: usize = 6;

fn call(record: &Record) -> Outcome {
    model::call(record, &mut buffer(record)).unwrap()
}

fn shaped(shape: u8) -> Record {
    let mut record = plain(CLASSIC);
    record.set_flags(shape);
    record
}

fn line(record: &Record) -> String {
    expect(0, record, &Kinds::all(), &mut Stats::default()).unwrap()
}

/// A steady call, its samples one by one: the ported Rust's states show the wraps and the changes of
/// `high`, of which no sample has two.
#[test]
fn counts_are_those_that_the_originals_states_show() {
    for shape in 0..=MOST_SHAPE {
        for (frequency, width) in [(0.11, 0.3), (0.013, 0.7), (0.2, 0.5)] {
            let mut record = shaped(shape);
            record.set_float(FREQUENCY_AT, frequency);
            record.set_float(WIDTH_OR_SHAPE_AT, width);
            record.set_float(state_at(5), frequency);
            record.set_float(state_at(WIDTH), width);
            let mut one = record;
            one.set_length(1);
            let [mut cycles, mut rises, mut falls] = [0; 3];
            for _ in 0..400 {
                let after = original::render(&one, &mut [0.0]);
                let went_back = f32::from_bits(after[PHASE]) < one.float(state_at(PHASE));
                cycles += u32::from(went_back);
                rises += u32::from(after[HIGH] > one.word(state_at(HIGH)));
                falls += u32::from(after[HIGH] < one.word(state_at(HIGH)));
                one.set_state_words(&after);
            }
            record.set_length(400);
            let counts = call(&record).counts;
            let counted = [counts.cycles, counts.rises, counts.falls, counts.cuts];
            assert_eq!(counted, [cycles, rises, falls, 0], "shape {shape}");
            assert!(cycles > 0 && (rises > 0) != WITHOUT_EDGES.contains(&shape));
        }
    }
}

/// High, and a step from before the width over the end of the cycle: slopes fall and rise in one
/// sample. Low, the squares rise and fall. The others leave `high` as it is.
#[test]
fn both_changes_of_high_in_one_sample_count() {
    for shape in 0..=MOST_SHAPE {
        for high in [0, 1] {
            let mut record = shaped(shape);
            record.set_length(1);
            record.set_float(FREQUENCY_AT, 0.25);
            record.set_float(state_at(PHASE), 0.875);
            record.set_word(state_at(HIGH), high);
            record.set_float(state_at(5), 0.25);
            let outcome = call(&record);
            let counted = (outcome.counts.rises, outcome.counts.falls);
            let expected = match (shape, high) {
                (0 | 1, _) => (0, 0),
                (2 | 3, 1) | (4..=7, 0) => (1, 1),
                (2 | 3, _) => (1, 0),
                _ => (0, 1),
            };
            assert_eq!(counted, expected, "shape {shape}, high {high}");
            assert_eq!(outcome.counts.cycles, 1);
        }
    }
}

/// Past the phase of a sample that hardly moves: a square falls there and a slope rises, and on the way
/// back the other way round.
#[test]
fn a_width_that_passes_the_phase_turns_high() {
    for shape in 0..=MOST_SHAPE {
        for (from, to, is_up) in [(0.25, 0.75, true), (0.75, 0.25, false)] {
            let mut record = shaped(shape);
            record.set_length(4);
            record.set_float(FREQUENCY_AT, 0.001);
            record.set_float(WIDTH_OR_SHAPE_AT, to);
            record.set_float(state_at(PHASE), 0.4);
            record.set_float(state_at(5), 0.001);
            record.set_float(state_at(WIDTH), from);
            let is_slope = shape == 3;
            record.set_word(state_at(HIGH), u32::from(is_up != is_slope));
            let counts = call(&record).counts;
            let counted = (counts.cycles, counts.rises, counts.falls);
            let expected = match shape {
                3 => (0, u32::from(is_up), u32::from(!is_up)),
                4..=6 => (0, u32::from(!is_up), u32::from(is_up)),
                // Half a cycle is the width: the phase stays before it.
                2 => (0, u32::from(!is_up), 0),
                7 => (0, 0, u32::from(is_up)),
                _ => (0, 0, 0),
            };
            let high = record.word(state_at(HIGH));
            assert_eq!(counted, expected, "shape {shape}, high {high}");
        }
    }
}

#[test]
fn a_width_that_leaves_its_room_is_refused_where_it_is_stepped() {
    for shape in 0..=MOST_SHAPE {
        let mut record = shaped(shape);
        record.set_length(3);
        record.set_float(FREQUENCY_AT, 0.000001);
        record.set_float(WIDTH_OR_SHAPE_AT, 1.0);
        record.set_float(state_at(5), 0.000001);
        for (width, kept) in [(0.0f32, true), (-0.0, true), (1.0, true), (0.5, false)] {
            record.set_float(state_at(WIDTH), width);
            record.set_length(if width == 1.0 { 4096 } else { 3 });
            let outcome = call(&record);
            let has_width = !WITHOUT_WIDTH.contains(&shape);
            let drifts = has_width && width == 1.0;
            assert_eq!(outcome.answer, if drifts { 6 } else { 0 }, "shape {shape}");
            let same = outcome.words[WIDTH] == width.to_bits();
            assert_eq!(same, !has_width || (kept && drifts), "shape {shape}");
        }
        record.set_float(state_at(WIDTH), 1.0f32.next_up());
        assert_eq!(call(&record).answer, 3, "a state's width is tested always");
    }
}

#[test]
fn the_factors_are_carried_as_they_are() {
    for shape in 0..=MOST_SHAPE {
        let mut record = shaped(shape);
        record.set_float(state_at(7), 0.3);
        record.set_float(state_at(8), -7.0);
        let words = call(&record).words;
        assert_eq!(words[7..], record.state_words()[7..], "shape {shape}");
    }
}

#[test]
fn byte_1_is_a_shape_or_another_call_or_none() {
    for byte in 0..=255 {
        let line = line(&shaped(byte));
        let expected = match byte {
            0..=7 => "0 0 ",
            128 => "4 0 0 0 0 0 0 ",
            _ => "-",
        };
        assert!(line.starts_with(expected), "{byte}: {line}");
    }
    // The variable shape's other bits mean nothing.
    for byte in 0..=255 {
        let mut record = plain(SHAPE);
        record.set_flags(byte);
        let told = line(&record);
        record.set_flags(byte & 3);
        assert_eq!(told == line(&record), byte != ANOTHER_CALL, "{byte}");
    }
}

#[test]
fn another_call_touches_no_sample_and_leaves_any_bits() {
    let mut record = plain(SHAPE);
    record.set_flags(ANOTHER_CALL);
    record.set_state_words(&[0xff80_0001; 10]);
    let nans = " ff800001".repeat(9);
    let untouched = super::line::checksum(&buffer(&record));
    for (phase, told) in [
        (0.25f32, "0 0 0 0 0 0 0 3e800000"),
        (1.0, "4 0 0 0 0 0 0 ff800001"),
    ] {
        record.set_float(GIVEN_AT, phase);
        assert_eq!(line(&record), format!("{told}{nans} {untouched:08x}"));
    }

    let mut record = shaped(ANOTHER_CALL);
    record.set_state_words(&[0xff80_0001; 9]);
    record.set_float(GIVEN_AT, 384_001.0);
    let refused = format!("4 0 0 0 0 0 0 ff800001{} {untouched:08x}", &nans[..72]);
    assert_eq!(line(&record), refused);
    record.set_float(GIVEN_AT, 48_000.0);
    let start = super::start(CLASSIC, true).into_iter();
    let words: String = start.map(|word| format!(" {word:08x}")).collect();
    assert_eq!(
        line(&record),
        format!("0 0 0 0 0 0 0{words} {untouched:08x}")
    );
}

#[test]
fn a_million_samples_agree() {
    let mut stats = Stats::default();
    let records = super::make::records(12_000, 19, &Kinds::one(CLASSIC));
    for (number, record) in records.iter().enumerate() {
        expect(number, record, &Kinds::all(), &mut stats).unwrap();
    }
    assert!(stats.samples() > 1_000_000, "{} samples", stats.samples());
}

//! Calls of the classic oscillator, of every shape: beside its turning points, under a width that
//! passes the phase, with any bits in its filters, and where a step leaves its room or may not.

use super::fixed::plain;
use crate::calls::record::*;

/// A step that no addition here rounds.
const STEP: f32 = 0.125;
const LOWEST: f32 = 0.000001;
const TWO_TO_19: f32 = 524_288.0;
const TWO_TO_24: f32 = 16_777_216.0;
const TWO_TO_26: f32 = 67_108_864.0;

/// The state words of any bits: the next sample, both filters, both factors.
const ANY_BITS: [usize; 5] = [1, 2, 3, 7, 8];
/// NaN, infinities, -0.0, subnormal numbers, and the largest there are.
const ODD: [u32; 8] = [
    0xff80_0001,
    0x7f80_0000,
    0xff80_0000,
    0x8000_0000,
    0x0000_0001,
    0x807f_ffff,
    0x7f7f_ffff,
    0xff7f_ffff,
];

pub fn records() -> Vec<Record> {
    let of_shape = |shape: u8| {
        let [turns, passed] = [turning_points(shape), overtaken(shape)];
        [
            turns,
            passed,
            odd_words(shape),
            drifts(shape),
            played(shape),
        ]
        .concat()
    };
    (0..=MOST_SHAPE).flat_map(of_shape).collect()
}

/// A call of a shape, and its state: phase, high, frequency, width.
fn call(shape: u8, length: u16, settings: [f32; 2], state: (f32, u32, f32, f32)) -> Record {
    let mut record = plain(CLASSIC);
    record.set_flags(shape);
    record.set_length(length);
    record.set_float(FREQUENCY_AT, settings[0]);
    record.set_float(WIDTH_OR_SHAPE_AT, settings[1]);
    let (phase, high, frequency, width) = state;
    record.set_float(state_at(0), phase);
    record.set_word(state_at(4), high);
    record.set_float(state_at(5), frequency);
    record.set_float(state_at(6), width);
    record
}

/// The next step brings the phase to the width, to half a cycle, to a whole one, or one float before
/// it; from a state that is high and from one that is low.
fn turning_points(shape: u8) -> Vec<Record> {
    let mut records = Vec::new();
    for width in [0.5f32, 0.375] {
        for end in [width, 0.5, 1.0] {
            for end in [end.next_down(), end] {
                for high in [0, 1] {
                    let state = (end - STEP, high, STEP, width);
                    records.push(call(shape, 2, [STEP, width], state));
                }
            }
        }
    }
    records
}

/// The width passes the phase, up and down, at the first sample, at a later one and at the last; or
/// it comes to lie on the phase.
fn overtaken(shape: u8) -> Vec<Record> {
    let slow = 1.0 / 1024.0;
    let mut records = Vec::new();
    for (phase, from, to, length) in [
        (0.3, 0.25, 0.6, 1),
        (0.3, 0.25, 0.6, 7),
        (0.55, 0.25, 0.6, 7),
        (0.5, 0.75, 0.25, 1),
        (0.5, 0.75, 0.25, 7),
        (0.26, 0.75, 0.25, 7),
        (0.5 - slow, 0.25, 0.5, 1),
        (0.5 - slow, 0.75, 0.5, 1),
    ] {
        for high in [0, 1] {
            records.push(call(shape, length, [slow, to], (phase, high, slow, from)));
        }
    }
    records
}

/// Odd bits in each place that may hold any: before a wrap, and at a low frequency, where an error of
/// one rounding is seen.
fn odd_words(shape: u8) -> Vec<Record> {
    let mut records = Vec::new();
    for word in ANY_BITS {
        for bits in ODD {
            let mut record = call(shape, 2, [0.25, 0.5], (0.75, 1, 0.25, 0.5));
            record.set_word(state_at(word), bits);
            records.push(record);
        }
    }
    let tiny = f32::from_bits(5);
    for (low_pass, high_pass) in [(tiny, -tiny), (-0.0, 0.0), (0.0, -0.0)] {
        let mut record = call(shape, 3, [LOWEST, 0.5], (0.125, 0, LOWEST, 0.5));
        record.set_float(state_at(1), -0.0);
        record.set_float(state_at(2), low_pass);
        record.set_float(state_at(3), high_pass);
        records.push(record);
    }
    records
}

/// The last step of a frequency lies below 0, and with one sample less it does not; the same where a
/// fault comes before it. A width stays at 1 at the first step, comes to 1 in the midst of a block and
/// to 0 at its end: a shape that has no width is answered all the same, and keeps it.
fn drifts(shape: u8) -> Vec<Record> {
    let fast = (0.3, 1, 12_290_525.0 / TWO_TO_26, 0.5);
    let down = |length| call(shape, length, [LOWEST, 0.5], fast);
    let (mut bad_width, mut bad_phase, bad_length) = (down(4096), down(4096), down(4097));
    bad_width.set_float(WIDTH_OR_SHAPE_AT, 1.0f32.next_up());
    bad_phase.set_float(state_at(0), 1.0);
    // Both drift, the width first: the walk goes by sample, and then by parameter.
    let both = call(shape, 4096, [LOWEST, 1.0], (0.3, 1, fast.2, 1.0));
    let width = |from, to, length, frequency| {
        let state = (0.3, 0, frequency, from);
        call(shape, length, [frequency, to], state)
    };
    let slow = 1.0 / TWO_TO_19;
    vec![
        down(4096),
        down(4095),
        bad_width,
        bad_phase,
        bad_length,
        both,
        width(1.0, 1.0, 4096, slow),
        width(1.0, 1.0, 0, slow),
        width(1.0, 1.0, 2, slow),
        width(1.0 - 673.0 / TWO_TO_24, 1.0, 1000, LOWEST),
        width(16_779_008.0 / TWO_TO_26, 0.0, 1024, slow),
        width(0.0, 0.0, 3, LOWEST),
        width(-0.0, 0.0, 3, LOWEST),
        width(1.0f32.next_down(), 1.0, 300, 2.0 * LOWEST),
    ]
}

/// Some cycles under steps that round, with widths that round in their slopes, and from fast to slow.
fn played(shape: u8) -> Vec<Record> {
    let state = (0.77, 1, 0.113, 0.31);
    let mut records = Vec::new();
    for (frequency, width) in [
        (0.113, 0.31),
        (0.07, 0.83),
        (0.24, 0.1),
        (1.0, 0.9),
        (0.003, 0.02),
    ] {
        let mut record = call(shape, 48, [frequency, width], state);
        record.set_float(state_at(1), 0.37);
        record.set_float(state_at(2), -0.21);
        record.set_float(state_at(3), 0.61);
        record.set_float(state_at(7), 0.27210885);
        record.set_float(state_at(8), 3.675);
        records.push(record);
    }
    records
}

//! The worked figures of the request that are calls: single samples whose steps are given, the
//! renderer's example, and the string's refusals.

use super::fields::frequencies;
use super::fixed::plain;
use crate::calls::record::*;

pub fn figures(kind: u8) -> Vec<Record> {
    match kind {
        SHAPE => [vec![rise_fall_rise()], master_wraps(SHAPE)].concat(),
        SAW => vec![rise_above_one(), renderer_saw()],
        SUPER_SQUARE => {
            let factors = [0.5, 1.0].map(slave_factor).to_vec();
            [master_wraps(SUPER_SQUARE), factors].concat()
        }
        NES => vec![renderer_nes()],
        STRING => string_figures(),
        _ => Vec::new(),
    }
}

fn with_state(mut record: Record, length: u16, state: &[f32]) -> Record {
    record.set_length(length);
    for (i, &value) in state.iter().enumerate() {
        record.set_float(state_at(i), value);
    }
    record
}

/// P8: master phase 0.875 and a steady step of 0.25, so that the reset comes half a step before the
/// sample. The first slave phase is the figure's; from the others the reset falls on a crossing.
pub fn master_wraps(kind: u8) -> Vec<Record> {
    let mut records = Vec::new();
    for slave in [0.25, 0.375, 0.875, 1.0f32.next_down()] {
        for high in [0, 1] {
            let mut record = plain(kind);
            record.set_flags(u8::from(kind == SHAPE));
            for &(word, setting) in frequencies(kind) {
                record.set_float(setting, 0.25);
                record.set_float(state_at(word), 0.25);
            }
            record.set_float(WIDTH_OR_SHAPE_AT, 0.5);
            let mut record = with_state(record, 1, &[0.875, slave]);
            record.set_word(state_at(if kind == SHAPE { 4 } else { 3 }), high);
            records.push(record);
        }
    }
    records
}

/// P6: from a slave frequency of 0 the only step is the target, so the state shows the factor.
pub fn slave_factor(shape: f32) -> Record {
    let mut record = plain(SUPER_SQUARE);
    record.set_float(FREQUENCY_AT, 0.03125);
    record.set_float(WIDTH_OR_SHAPE_AT, shape);
    with_state(record, 1, &[0.0; 6])
}

/// P9: the saw rises with its phase above 1, and wraps at the next sample.
pub fn rise_above_one() -> Record {
    let mut record = plain(SAW);
    record.set_float(FREQUENCY_AT, 0.25);
    record.set_float(WIDTH_OR_SHAPE_AT, 0.5);
    with_state(record, 2, &[0.875, 0.0, 0.5, 0.0, 0.25, 0.5, 0.0])
}

/// P10. The width is steady at 0.0625, so the target is 1/32; from 17/64 the first of 15 steps to
/// it is exactly 0.25.
pub fn rise_fall_rise() -> Record {
    let mut record = plain(SHAPE);
    record.set_float(FREQUENCY_AT, 0.03125);
    record.set_float(WIDTH_OR_SHAPE_AT, 0.0625);
    let state = [
        0.0,
        0.875,
        0.0,
        0.0625,
        0.0,
        0.125,
        17.0 / 64.0,
        0.0625,
        0.0,
        0.0,
    ];
    with_state(record, 15, &state)
}

pub fn renderer_saw() -> Record {
    let mut record = plain(SAW);
    record.set_length(4);
    record.set_float(FREQUENCY_AT, 0.25);
    record.set_float(WIDTH_OR_SHAPE_AT, 0.5);
    record.set_float(WAVESHAPE_AT, 0.0);
    record
}

pub fn renderer_nes() -> Record {
    let mut record = plain(NES);
    record.set_length(8);
    record.set_float(FREQUENCY_AT, 0.25);
    record
}

/// The octaves' ends, the highest frequency and the float above it, and registrations of 6 and 8.
pub fn string_figures() -> Vec<Record> {
    let mut records = Vec::new();
    for frequency in [0.0625f32, 0.125, 0.25, 0.5, 0.75] {
        for frequency in [frequency, frequency.next_up()] {
            let mut record = plain(STRING);
            record.set_float(FREQUENCY_AT, frequency);
            records.push(record);
        }
    }
    for count in 0..=8 {
        let mut record = plain(STRING);
        record.set_word(REGISTRATION_COUNT_AT, count);
        records.push(record);
    }
    records
}

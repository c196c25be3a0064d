//! Calls in which rounding carries a step out of its room, and their neighbours in which it does
//! not. The numbers were found by search.

use super::fields::frequencies;
use super::fixed::plain;
use crate::calls::line::buffer;
use crate::calls::model;
use crate::calls::record::*;
use crate::random::Random;

/// A frequency or width on its way from `value` to the setting `target` over `length` samples.
struct Way {
    value: f32,
    target: f32,
    length: u16,
}

const LOWEST: f32 = 0.000001;
const LONGEST: u16 = 4096;
const TWO_TO_19: f32 = 524_288.0;
const TWO_TO_24: f32 = 16_777_216.0;
const TWO_TO_26: f32 = 67_108_864.0;

/// The last step is below 0; the first of these is the request's figure.
const BELOW_ZERO: Way = Way {
    value: 12_290_525.0 / TWO_TO_26,
    target: LOWEST,
    length: 4096,
};
/// The string's phase goes eight times as fast as its setting.
const STRING_BELOW_ZERO: Way = Way {
    value: 16_784_588.0 / TWO_TO_26,
    target: LOWEST,
    length: 4096,
};

/// The last step is exactly 0.
const ON_ZERO: Way = Way {
    value: 4_401_091.0 / TWO_TO_26,
    target: LOWEST,
    length: 1024,
};
const STRING_ON_ZERO: Way = Way {
    value: 33_561_600.0 / TWO_TO_26,
    target: 1.0 / TWO_TO_19,
    length: 2048,
};
const WIDTH_ON_ZERO: Way = Way {
    value: 16_779_008.0 / TWO_TO_26,
    target: 0.0,
    length: 1024,
};

/// The first step is so small that the width stays at 1.
const WIDTH_ON_ONE: Way = Way {
    value: 1.0,
    target: 1.0,
    length: 4096,
};

pub fn drifts(kind: u8) -> Vec<Record> {
    let (below, on) = match kind {
        STRING => (STRING_BELOW_ZERO, STRING_ON_ZERO),
        _ => (BELOW_ZERO, ON_ZERO),
    };
    let mut records = Vec::new();
    for &(word, _) in frequencies(kind) {
        for way in [&below, &on] {
            records.push(frequency_drifts(kind, word, way, way.length));
            records.push(frequency_drifts(kind, word, way, way.length - 1));
        }
    }
    let Some(width) = width_word(kind) else {
        return records;
    };
    for way in [WIDTH_ON_ZERO, WIDTH_ON_ONE] {
        records.push(width_drifts(kind, width, &way, way.length, 1.0 / TWO_TO_19));
        records.push(width_drifts(kind, width, &way, 2, 1.0 / TWO_TO_19));
    }
    records
}

/// The state word of a kind's interpolated width.
fn width_word(kind: u8) -> Option<usize> {
    match kind {
        SHAPE => Some(7),
        SAW => Some(5),
        CLASSIC => Some(6),
        _ => None,
    }
}

/// For each block length a call that drifts, where one is found in so many tries, mostly at its last
/// step; and of a width one that does so at its last step, so that every index comes up from 68 on.
/// Shorter blocks do not round often enough: in them a width that stays at 1 drifts, at the first
/// step, and that is among the fixed calls.
pub fn everywhere(kind: u8, tries: u64, random: &mut Random) -> Vec<Record> {
    let of_length = |length: u16| {
        (0..tries)
            .map(|_| far_way(kind, length, random))
            .find(drifts_on_its_way)
    };
    let mut records: Vec<Record> = (1..=LONGEST).filter_map(of_length).collect();
    if let Some(word) = width_word(kind) {
        let up = |length| width_drifts(kind, word, &up_to_one(length), length, LOWEST);
        records.extend((1..=LONGEST).map(up).filter(drifts_on_its_way));
    }
    records
}

fn drifts_on_its_way(record: &Record) -> bool {
    let outcome = model::call(record, &mut buffer(record)).unwrap();
    outcome.answer == 6 && outcome.index > 0
}

/// A long way down to the lowest target there is, of a frequency or a width; or of a width up to
/// the highest, close to 1.
fn far_way(kind: u8, length: u16, random: &mut Random) -> Record {
    if let (Some(word), true) = (width_word(kind), random.one_in(2)) {
        let (value, target) = match random.below(8) {
            0..4 => (random.between(0.0, 1.0), 1.0),
            _ => (random.between(0.5, 1.0), 0.0),
        };
        let way = Way {
            value,
            target,
            length,
        };
        return width_drifts(kind, word, &way, length, LOWEST);
    }
    let top = if kind == STRING {
        17.0 / 32.0
    } else {
        17.0 / 64.0
    };
    let way = Way {
        value: random.between(top / 2.0, top),
        target: LOWEST,
        length,
    };
    let (word, _) = random.pick(frequencies(kind));
    frequency_drifts(kind, word, &way, length)
}

/// A width on its way to the highest target, 34 last places below 1, by steps of more than half of a
/// last place. Each is rounded up to a whole one, so that the last step comes to 1.
fn up_to_one(length: u16) -> Way {
    Way {
        value: 1.0 - f32::from(length) / TWO_TO_24,
        target: 1.0,
        length,
    }
}

/// One interpolated frequency goes that way, and the others of the kind a harmless one.
fn frequency_drifts(kind: u8, word: usize, way: &Way, length: u16) -> Record {
    let mut record = plain(kind);
    record.set_length(length);
    for &(other, setting) in frequencies(kind) {
        record.set_float(state_at(other), 0.01);
        record.set_float(setting, way.target);
    }
    record.set_float(state_at(word), way.value);
    match kind {
        SHAPE | SUPER_SQUARE | CLASSIC => record.set_float(WIDTH_OR_SHAPE_AT, 0.5),
        SAW => {
            record.set_float(WIDTH_OR_SHAPE_AT, 0.5);
            record.set_float(WAVESHAPE_AT, 0.0);
        }
        _ => {}
    }
    record
}

/// The width goes that way under steady frequencies, so low that it may go nearly as far as it
/// likes.
fn width_drifts(kind: u8, word: usize, way: &Way, length: u16, steady: f32) -> Record {
    let mut record = plain(kind);
    record.set_length(length);
    for &(other, setting) in frequencies(kind) {
        record.set_float(state_at(other), steady);
        record.set_float(setting, steady);
    }
    record.set_float(state_at(word), way.value);
    record.set_float(WIDTH_OR_SHAPE_AT, way.target);
    record
}

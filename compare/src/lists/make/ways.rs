//! Ways of a frequency or a width on which rounding carries a step out of its room, in the midst of a
//! block or at its end. A list reaches each from the start. The numbers were found by search.

use super::damage::{set_length, set_word};
use super::sound;
use crate::calls::make::fields::settings;
use crate::calls::record::*;
use crate::lists::job::{job, Job};

/// A setting of a kind on its way from one value to another over `length` samples.
struct Way {
    kind: u8,
    setting: usize,
    from: f32,
    to: f32,
    length: u16,
}

const LOWEST: f32 = 0.000001;
const TWO_TO_24: f32 = 16_777_216.0;
/// The classic's shape: one that has a width.
const SQUARE: u8 = 4;
/// Where the frequencies stand that do not go the way.
const STEADY: f32 = 0.01;

const fn way(kind: u8, setting: usize, from: f32, to: f32, length: u16) -> Way {
    Way {
        kind,
        setting,
        from,
        to,
        length,
    }
}

/// A frequency is at or below 0 at the last sample.
const FREQUENCIES: [Way; 13] = [
    way(SHAPE, FREQUENCY_AT, 0.24078071, LOWEST, 300),
    way(SHAPE, FREQUENCY_AT, 0.13803941, LOWEST, 1300),
    way(SHAPE, MASTER_OR_GAIN_AT, 0.24078071, LOWEST, 300),
    way(SAW, FREQUENCY_AT, 0.23757994, LOWEST, 300),
    way(SAW, FREQUENCY_AT, 0.115317345, LOWEST, 1300),
    way(SUPER_SQUARE, FREQUENCY_AT, 0.23818344, LOWEST, 300),
    way(SUPER_SQUARE, FREQUENCY_AT, 0.10834783, LOWEST, 2900),
    way(NES, FREQUENCY_AT, 0.2349782, LOWEST, 300),
    way(NES, FREQUENCY_AT, 0.118995965, LOWEST, 1300),
    way(STRING, FREQUENCY_AT, 0.058161594, LOWEST, 1300),
    way(STRING, FREQUENCY_AT, 0.052189678, LOWEST, 2900),
    way(CLASSIC, FREQUENCY_AT, 0.23953797, LOWEST, 300),
    way(CLASSIC, FREQUENCY_AT, 0.18626799, LOWEST, 1300),
];

/// A width is at 0 or 1, at 1 long before the last sample.
const WIDTHS: [(f32, f32, u16); 3] = [
    (0.87727326, 0.0, 300),
    (1.0 - 673.0 / TWO_TO_24, 1.0, 1000),
    (1.0 - 2165.0 / TWO_TO_24, 1.0, 4096),
];

fn ways(kind: u8) -> Vec<Way> {
    let mut ways: Vec<Way> = FREQUENCIES.into_iter().collect();
    for &(from, to, length) in &WIDTHS {
        for kind in [SHAPE, SAW, CLASSIC] {
            ways.push(way(kind, WIDTH_OR_SHAPE_AT, from, to, length));
        }
    }
    ways.retain(|way| way.kind == kind);
    ways
}

/// Two samples at the beginning of a way, then the block that drifts.
fn drifting(way: &Way) -> [Job; 3] {
    let mut call = Record::of_kind(way.kind);
    for field in settings(way.kind) {
        call.set_float(field.at, 0.5);
    }
    match (way.kind, way.setting) {
        (NES, _) => call.set_word(BITS_AT, 16),
        (CLASSIC, _) => call.set_flags(SQUARE),
        (SHAPE, MASTER_OR_GAIN_AT) => call.set_float(FREQUENCY_AT, STEADY),
        (SHAPE, _) => call.set_float(MASTER_OR_GAIN_AT, STEADY),
        _ => {}
    }
    if way.setting == WIDTH_OR_SHAPE_AT {
        call.set_float(FREQUENCY_AT, LOWEST);
    }
    let [mut settle, mut drift] = [job(&call); 2];
    set_word(&mut settle, way.setting, way.from.to_bits());
    set_length(&mut settle, 1);
    set_word(&mut drift, way.setting, way.to.to_bits());
    set_length(&mut drift, way.length);
    [settle, settle, drift]
}

/// The records of each way.
pub fn drifts(kind: u8) -> Vec<[Job; 3]> {
    ways(kind).iter().map(drifting).collect()
}

/// Each way in a list of its own. After the drift the way is gone in few samples, which are answered.
pub fn lists(kind: u8) -> Vec<Vec<u8>> {
    let list = |jobs: [Job; 3]| {
        let mut short = jobs[2];
        set_length(&mut short, 8);
        [&jobs[..], &[short, sound(kind)]].concat().concat()
    };
    drifts(kind).into_iter().map(list).collect()
}

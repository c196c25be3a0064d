//! Calls whose first sample has a crossing beside a reset: before it, at it, or late; and such whose
//! sample has no reset. Each begins with what it shows. Save where rounding is said to decide, no sum of
//! phases, widths and steps rounds, so that t and the reset time can be worked out by hand.

use super::fixed::plain;
use crate::calls::model::Edge::{self, Fall, Rise};
use crate::calls::record::*;
use crate::calls::resets::Meets::{self, *};

/// The crossings of a sample in their order, and where each lies beside the reset.
pub type Shows = &'static [(Edge, Meets)];

/// Phase and step of the master, phase and step of the slave, the width before and this sample's, and
/// `high`.
type Numbers = ([f32; 2], [f32; 2], [f32; 2], u32);
/// The same of the super square, whose shape stands in the place of the widths.
type SquareNumbers = ([f32; 2], [f32; 2], f32, u32);

const SYNC: u8 = 1;
/// 2^-19: a small part of it is rounded away beside 0.75.
const TINY: f32 = 1.0 / 524_288.0;

/// The variable shape with sync, in one sample. Its steps are those that the state holds.
#[rustfmt::skip]
const SHAPES: [(Shows, Numbers); 16] = [
    // The width came down past the phase: t = 0.125 / 0.5; the reset time 0.125 / 0.25. The cut is due
    // to this rise alone.
    (&[(Rise, After)], ([0.875, 0.25], [0.25, 0.125], [0.625, 0.25], 0)),
    // t = 0.28125 / 0.125, then 0.03125 / 0.125; the reset time 0.5.
    (&[(Rise, Before), (Fall, After)], ([0.875, 0.25], [0.90625, 0.125], [0.75, 0.75], 0)),
    // t = 0.65625 / 0.75, then 0.03125 / 0.125; the reset time 0.234375 / 0.25.
    (&[(Rise, After), (Fall, After)], ([0.984375, 0.25], [0.90625, 0.125], [1.0, 0.375], 0)),
    // Master and slave in step, high and low.
    (&[(Fall, At)], ([0.9375, 0.125], [0.9375, 0.125], [0.5, 0.5], 1)),
    (&[(Rise, Before), (Fall, At)], ([0.9375, 0.125], [0.9375, 0.125], [0.5, 0.5], 0)),
    // t and the reset time are 0.5; both are 0; t is -0.0 and the reset time 0.
    (&[(Rise, At)], ([0.875, 0.25], [0.1875, 0.125], [0.25, 0.25], 0)),
    (&[(Rise, At)], ([0.75, 0.25], [0.125, 0.125], [0.25, 0.25], 0)),
    (&[(Rise, At)], ([0.75, 0.25], [0.375, 0.125], [0.25, 0.5], 0)),
    // The phase was past the width, which moved by more than the step: t = 0.125 / -0.25; the reset
    // time 0.5, 0, and none.
    (&[(Rise, Negative)], ([0.875, 0.25], [0.5, 0.125], [0.125, 0.5], 0)),
    (&[(Rise, Negative)], ([0.75, 0.25], [0.5, 0.125], [0.125, 0.5], 0)),
    (&[(Rise, NegativeWithoutReset)], ([0.25, 0.25], [0.5, 0.125], [0.125, 0.5], 0)),
    // The width moved by the step, and the phase is at it: t = 0 / 0; the reset time 0 and 2^-7.
    (&[(Rise, Nan)], ([0.75, 0.25], [0.375, 0.125], [0.375, 0.5], 0)),
    (&[(Rise, Nan)], ([0.75 + 1.0 / 512.0, 0.25], [0.75 - TINY, TINY], [0.75 - TINY, 0.75], 0)),
    // The width moved by the step, and the phase is past it: t is infinite; the reset time 0.5.
    (&[(Rise, Before)], ([0.875, 0.25], [0.4375, 0.125], [0.375, 0.5], 0)),
    // By rounding t is a few floats below the reset time. These numbers were found by search.
    (&[(Rise, After)], ([0.90128124, 0.243], [0.3984375, 0.25], [0.5, 0.5], 0)),
    (&[(Fall, After)], ([0.9072813, 0.138], [0.8320313, 0.25], [0.5, 0.5], 1)),
];

/// The same in the first of two samples: the slave's step goes from 15/64 to 1/64, so that it is 1/8
/// here, more than the width.
#[rustfmt::skip]
const NARROW: [(Shows, Numbers); 4] = [
    // t = 0.078125 / 0.125, then 0.046875 / 0.125; the reset time 0.5. The cut is due to the late rise.
    (&[(Fall, Before), (Rise, After)], ([0.875, 0.25], [0.953125, 0.234375], [0.03125, 0.03125], 1)),
    // t = 1.046875 / 0.125 before these.
    (&[(Rise, Before), (Fall, Before), (Rise, After)], ([0.875, 0.25], [0.953125, 0.234375], [0.03125, 0.03125], 0)),
    // The reset time 0.75.
    (&[(Rise, Before), (Fall, After), (Rise, After)], ([0.9375, 0.25], [0.953125, 0.234375], [0.03125, 0.03125], 0)),
    // The width moved, so that the rises divide by 1.09375; the reset time 0.96875.
    (&[(Rise, After), (Fall, After), (Rise, After)], ([0.9921875, 0.25], [0.953125, 0.234375], [1.0, 0.03125], 0)),
];
const NARROW_TARGET: f32 = 0.015625;

/// The super square in one sample. Its width is half a cycle, more than a step, and stands still: so t
/// is never negative or NaN, and a rise is late by rounding alone.
#[rustfmt::skip]
const SQUARES: [(Shows, SquareNumbers); 8] = [
    // t = 0.53125 / 0.125, then 0.03125 / 0.125; the reset time 0.5.
    (&[(Rise, Before), (Fall, After)], ([0.9375, 0.125], [0.90625, 0.125], 0.5, 0)),
    // Master and slave in step, high and low.
    (&[(Fall, At)], ([0.9375, 0.125], [0.9375, 0.125], 0.5, 1)),
    (&[(Rise, Before), (Fall, At)], ([0.9375, 0.125], [0.9375, 0.125], 0.5, 0)),
    // t and the reset time are 0.5; both are 0.
    (&[(Rise, At)], ([0.9375, 0.125], [0.4375, 0.125], 0.5, 0)),
    (&[(Rise, At)], ([0.875, 0.125], [0.375, 0.125], 0.5, 0)),
    // No reset.
    (&[(Rise, NoReset)], ([0.25, 0.125], [0.4375, 0.125], 0.5, 0)),
    // By rounding t is a few floats below the reset time. These numbers were found by search.
    (&[(Rise, After)], ([0.90128124, 0.243], [0.3984375, 0.25], 0.55, 0)),
    (&[(Fall, After)], ([0.9072813, 0.138], [0.8320313, 0.25], 0.9, 1)),
];

/// For a kind that has sync, each call with what its first sample shows.
pub fn meetings(kind: u8) -> Vec<(Shows, Record)> {
    match kind {
        SHAPE => {
            let steady = SHAPES.map(|(shows, numbers)| (shows, shape(numbers)));
            let narrow = NARROW.map(|(shows, numbers)| (shows, narrow(shape(numbers))));
            [&steady[..], &narrow].concat()
        }
        SUPER_SQUARE => SQUARES
            .map(|(shows, numbers)| (shows, square(numbers)))
            .to_vec(),
        _ => Vec::new(),
    }
}

/// These calls, and those of the variable shape again without sync.
pub fn records(kind: u8) -> Vec<Record> {
    let mut records: Vec<Record> = meetings(kind).into_iter().map(|(_, call)| call).collect();
    if kind == SHAPE {
        let synced = records.clone();
        records.extend(synced.into_iter().map(without_sync));
    }
    records
}

pub fn without_sync(mut call: Record) -> Record {
    call.set_flags(0);
    call
}

fn shape((master, slave, [before, width], high): Numbers) -> Record {
    let mut record = plain(SHAPE);
    record.set_length(1);
    record.set_flags(SYNC);
    record.set_float(MASTER_OR_GAIN_AT, master[1]);
    record.set_float(FREQUENCY_AT, slave[1]);
    record.set_float(WIDTH_OR_SHAPE_AT, width);
    let words = [(0, master[0]), (1, slave[0]), (3, before)];
    let steps = [(5, master[1]), (6, slave[1]), (7, width)];
    for (word, value) in words.into_iter().chain(steps) {
        record.set_float(state_at(word), value);
    }
    record.set_word(state_at(4), high);
    record
}

fn narrow(mut record: Record) -> Record {
    record.set_length(2);
    record.set_float(FREQUENCY_AT, NARROW_TARGET);
    record
}

fn square((master, slave, shape, high): SquareNumbers) -> Record {
    let mut record = plain(SUPER_SQUARE);
    record.set_length(1);
    record.set_float(FREQUENCY_AT, master[1]);
    record.set_float(WIDTH_OR_SHAPE_AT, shape);
    for (word, value) in [(0, master[0]), (1, slave[0]), (4, master[1]), (5, slave[1])] {
        record.set_float(state_at(word), value);
    }
    record.set_word(state_at(3), high);
    record
}

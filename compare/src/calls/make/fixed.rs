//! Records that every list begins with: the figures, drifts, every block length that matters, and
//! each field at each end of its range, one float below and one above.

use super::drifts::drifts;
use super::fields::{choices, settings, state, Field, Holds};
use super::figures::figures;
use super::others;
use crate::calls::original::starting_words;
use crate::calls::record::*;
use std::collections::HashSet;

/// The classic's shape of a plain call: one that rises and falls, and has a width.
const SLOPE: u8 = 3;

const LENGTHS: [u16; 13] = [
    0, 1, 2, 63, 64, 65, 4095, 4096, 4097, 8191, 8192, 8193, 65_535,
];

pub fn records(kind: u8) -> Vec<Record> {
    let mut records = figures(kind);
    records.extend(drifts(kind));
    records.extend(starts(kind));
    records.extend(lengths(kind));
    records.extend(first_refusal_wins(kind));
    records.extend(bits_that_could_be_lost(kind));
    records.extend(boundaries(kind));
    records.extend(others::records(kind));
    // Ends of different ranges meet, so some records come up more than once.
    let mut seen = HashSet::new();
    records.retain(|record| seen.insert(record.0));
    records
}

/// A plain call from the state that `init` leaves.
pub fn plain(kind: u8) -> Record {
    let mut record = Record::of_kind(kind);
    record.set_length(3);
    for field in settings(kind) {
        record.set_float(field.at, 0.125);
    }
    match kind {
        NES => record.set_word(BITS_AT, 4),
        STRING => record.set_word(REGISTRATION_COUNT_AT, 7),
        CLASSIC => record.set_flags(SLOPE),
        _ => {}
    }
    record.set_state_words(&starting_words(kind, true));
    record
}

/// The two states that the source gives, each with each of the flags that the kind uses.
fn starts(kind: u8) -> Vec<Record> {
    let mut records = Vec::new();
    for flag in 0..choices(kind) {
        for initialised in [false, true] {
            let mut record = plain(kind);
            record.set_length(64);
            record.set_flags(flag);
            record.set_state_words(&starting_words(kind, initialised));
            records.push(record);
        }
    }
    records
}

fn lengths(kind: u8) -> Vec<Record> {
    let with_length = |length| {
        let mut record = plain(kind);
        record.set_length(length);
        record
    };
    LENGTHS.map(with_length).to_vec()
}

/// A record to which every refusal applies, and what is left of it as the first of them is mended,
/// one after the other; the same again with an empty block.
fn first_refusal_wins(kind: u8) -> Vec<Record> {
    let sound = plain(kind);
    let mut record = sound;
    record.set_length(4097);
    record.set_float(state_at(0), -1.0);
    record.set_float(FREQUENCY_AT, 2.0);
    if kind == STRING {
        record.set_word(REGISTRATION_COUNT_AT, 8);
    }
    let mut records = vec![record];
    for length in [3, 0] {
        let mut mended = record;
        mended.set_length(length);
        records.push(mended);
        if kind == STRING {
            mended.set_word(REGISTRATION_COUNT_AT, 7);
            records.push(mended);
        }
        mended.set_word(state_at(0), sound.word(state_at(0)));
        records.push(mended);
        mended.set_float(FREQUENCY_AT, 1.0);
        records.push(mended);
    }
    records
}

/// Negative zero wherever 0 is in range, and a NaN whose bits can be told: in an empty block, which
/// changes nothing, in a refused one, which hands its words back as given, and in an answered one.
fn bits_that_could_be_lost(kind: u8) -> Vec<Record> {
    let mut record = plain(kind);
    for field in state(kind) {
        match field.holds {
            Holds::UpTo(..) | Holds::Below(..) => record.set_float(field.at, -0.0),
            Holds::AnyBits => record.set_word(field.at, 0xff80_0001),
            Holds::Flag | Holds::Whole(..) => {}
        }
    }
    let with_length = |length| {
        let mut record = record;
        record.set_length(length);
        record
    };
    [0, 4097, 3].map(with_length).to_vec()
}

/// Each field at each of its boundaries, with `high` (or `ascending`) 0 and 1 where there is one.
fn boundaries(kind: u8) -> Vec<Record> {
    let fields = [settings(kind), state(kind), other_ranges(kind)].concat();
    let flag = state(kind)
        .into_iter()
        .find(|field| matches!(field.holds, Holds::Flag));
    let mut records = Vec::new();
    for high in 0..=u32::from(flag.is_some()) {
        let mut base = plain(kind);
        if let Some(flag) = flag {
            base.set_word(flag.at, high);
        }
        for field in &fields {
            for word in field.holds.boundaries() {
                let mut record = base;
                record.set_word(field.at, word);
                if choices(kind) > 1 {
                    record.set_flags(records.len() as u8 % choices(kind));
                }
                records.push(record);
            }
        }
    }
    records
}

/// Ranges that depend on another field, and places within a range at which something turns.
fn other_ranges(kind: u8) -> Vec<Field> {
    let at = |at: usize, holds: Holds| Field { at, holds };
    match kind {
        SAW => vec![
            at(state_at(0), Holds::Below(0.0, 1.0)),
            at(FREQUENCY_AT, Holds::UpTo(0.25, 0.25)),
        ],
        SHAPE | CLASSIC => vec![at(FREQUENCY_AT, Holds::UpTo(0.25, 0.25))],
        SUPER_SQUARE => vec![
            at(FREQUENCY_AT, Holds::UpTo(0.25, 0.25)),
            at(WIDTH_OR_SHAPE_AT, Holds::UpTo(0.5, 0.5)),
        ],
        NES => vec![
            at(FREQUENCY_AT, Holds::UpTo(0.25, 0.25)),
            at(state_at(2), Holds::Whole(0, 15)),
        ],
        STRING => vec![
            at(FREQUENCY_AT, Holds::UpTo(0.0625, 0.125)),
            at(FREQUENCY_AT, Holds::UpTo(0.25, 0.5)),
        ],
        _ => Vec::new(),
    }
}

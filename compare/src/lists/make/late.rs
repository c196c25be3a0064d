//! Lists whose last sample has a crossing beside a reset: before it, at it, or late. Each begins with
//! what that sample shows. The numbers were found by search.

use super::damage::{set_length, set_word};
use crate::calls::make::fields::settings;
use crate::calls::make::late::Shows;
use crate::calls::model::Edge::{Fall, Rise};
use crate::calls::record::*;
use crate::calls::resets::Meets::*;
use crate::lists::job::{Job, JOB_BYTES};

/// Block length, frequency, master frequency, width or shape.
type Numbers = (u16, f32, f32, f32);

const SYNC: u8 = 1;
const LOWEST: f32 = 0.000001;
/// 2^-26, the distance of floats from 0.125 to 0.25.
const STEP: f32 = 1.0 / 67_108_864.0;
/// Shapes at which the slave makes one and a half cycles and two and a half in one of the master, so
/// that a rise meets the reset.
const ONE_AND_A_HALF: f32 = 0.6767767;
const TWO_AND_A_HALF: f32 = 0.80618626;
/// The settings of which the counts say nothing.
const OTHERS: f32 = 0.5;

/// The variable shape with sync. In a list a slave that is low is before its width, save right after a
/// reset, and two resets are more than one sample apart: so none comes to a negative t beside a reset.
#[rustfmt::skip]
const SHAPES: [(Shows, &[Numbers]); 9] = [
    // The cut is due to this rise alone.
    (&[(Rise, After)], &[(1, 0.125, 0.1875, 0.5625), (4, 0.0625, 0.25, 0.4375)]),
    // By rounding.
    (&[(Fall, After)], &[(1, 0.25, 0.25, 0.375), (2, 0.1875, 0.125, 0.6875), (3, 0.125, 0.25, 0.1875)]),
    (&[(Rise, Before), (Fall, After)], &[(1, 0.25, 0.125, 0.5625), (4, 0.0625, 0.25, 0.8125), (1, 0.25, 0.125, 0.75)]),
    (&[(Rise, After), (Fall, After)], &[(2, 0.25, 0.1875, 0.375), (3, 0.0625, 0.25, 0.875), (1, 0.25, 0.25, 0.3125)]),
    // Master and slave in step; the slave at the width; the same at the sample itself.
    (&[(Fall, At)], &[(4, 0.25, 0.25, 0.5), (2, 0.25, 0.25, 0.5), (4, 0.25, 0.25, 0.625)]),
    (&[(Rise, At)], &[(2, 0.125, 0.25, 0.5), (3, 0.125, 0.25, 0.5), (4, 0.125, 0.25, 0.5)]),
    (&[(Rise, At)], &[(1, 0.1875, 0.25, 0.625), (3, 0.125, 0.25, 0.625)]),
    // The width moves by exactly the step, and the phase, one float below the width before, rounds up to
    // the one after; the reset comes at the sample itself.
    (&[(Rise, Nan)], &[
        (1, 0.0625, 0.25, 0.1875 + STEP), (1, 0.0625, 0.25, 0.1875 + STEP), (1, 0.0625, 0.25, 0.1875 + STEP),
        (1, 0.125 + 3.0 * STEP, 0.25, 0.3125 + 4.0 * STEP),
    ]),
    // On their way down the step and the width round until the step is above the width. The way's last
    // sample has a reset, which leaves the slave past its width, and this moves by more than the next step.
    (&[(Rise, NegativeWithoutReset)], &[
        (1, 0.06, 0.225, 0.952), (1, 0.06, 0.225, 0.952), (119, LOWEST, 0.225, 0.0), (1, LOWEST, 0.225, 0.000002),
    ]),
];

/// The super square: late by rounding alone.
#[rustfmt::skip]
const SQUARES: [(Shows, &[Numbers]); 4] = [
    (&[(Rise, After)], &[(1, 0.067, 0.0, TWO_AND_A_HALF), (44, 0.067, 0.0, TWO_AND_A_HALF)]),
    (&[(Fall, After)], &[(8, 0.1875, 0.0, 0.1875), (3, 0.25, 0.0, 0.5), (6, 0.25, 0.0, 0.5)]),
    (&[(Rise, At)], &[(1, 0.089, 0.0, ONE_AND_A_HALF), (22, 0.089, 0.0, ONE_AND_A_HALF)]),
    (&[(Fall, At)], &[(4, 0.0625, 0.0, 0.375), (1, 0.25, 0.0, 0.6875), (7, 0.25, 0.0, 0.6875)]),
];

/// For a kind that has sync, each list with what its last sample shows.
pub fn meetings(kind: u8) -> Vec<(Shows, Vec<Job>)> {
    let rows: &[(Shows, &[Numbers])] = match kind {
        SHAPE => &SHAPES,
        SUPER_SQUARE => &SQUARES,
        _ => &[],
    };
    let jobs = |records: &[Numbers]| records.iter().map(|&numbers| job(kind, numbers)).collect();
    rows.iter()
        .map(|&(shows, records)| (shows, jobs(records)))
        .collect()
}

pub fn lists(kind: u8) -> Vec<Vec<u8>> {
    let jobs = meetings(kind).into_iter().map(|(_, jobs)| jobs);
    jobs.map(|jobs| jobs.concat()).collect()
}

fn job(kind: u8, (length, frequency, master, width): Numbers) -> Job {
    let mut job = [0; JOB_BYTES];
    job[0] = kind;
    set_length(&mut job, length);
    for field in settings(kind) {
        let value = match field.at {
            FREQUENCY_AT => frequency,
            MASTER_OR_GAIN_AT => master,
            WIDTH_OR_SHAPE_AT => width,
            _ => OTHERS,
        };
        set_word(&mut job, field.at, value.to_bits());
    }
    if kind == SHAPE {
        job[1] = SYNC;
    }
    job
}

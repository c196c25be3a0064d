//! The lists that are recorded beside the program `heard`: short blocks under settings that all
//! differ, so that a number which is handed to a call in another's place is heard; and late crossings.

use crate::calls::make::fields::settings;
use crate::calls::record::*;
use crate::calls::Kinds;
use crate::lists::framed::frame;
use crate::lists::job::{job, Job};
use crate::lists::make::damage::{set_length, set_word};
use crate::lists::make::late;

const BLOCKS: [u16; 8] = [29, 16, 41, 7, 33, 1, 24, 50];
/// The classic's shapes: each is played after another than the one of the number before it.
const SHAPES: [u8; 8] = [0, 5, 3, 7, 1, 6, 4, 2];

/// The lists in one stream, and after them one that is cut short, for which nothing is printed.
pub fn stream() -> Vec<u8> {
    let cut_short = &frame(&sound(SAW, 0).repeat(2))[..100];
    let framed: Vec<u8> = lists().iter().flat_map(|list| frame(list)).collect();
    [&framed, cut_short].concat()
}

pub fn lists() -> Vec<Vec<u8>> {
    let kinds = Kinds::all().list();
    let mut lists: Vec<Vec<u8>> = kinds.iter().map(|&kind| carried(kind).concat()).collect();
    lists.extend(kinds.iter().map(|&kind| among_refused(kind).concat()));
    lists.extend(kinds.iter().map(|&kind| lengths(kind).concat()));
    lists.push(in_turns(&kinds).concat());
    lists.push(Vec::new());
    lists.push(vec![0; 65]);
    lists.extend(kinds.into_iter().flat_map(late::lists));
    lists
}

/// Record `i` of a kind: no two of its numbers are the same, nor the same as in another record.
pub fn sound(kind: u8, i: usize) -> Job {
    let mut call = Record::of_kind(kind);
    call.set_length(BLOCKS[i % BLOCKS.len()]);
    for (j, field) in settings(kind).into_iter().enumerate() {
        call.set_float(field.at, 0.031 + 0.0173 * i as f32 + 0.0719 * j as f32);
    }
    match kind {
        SHAPE => {
            call.set_flags((i % 4) as u8);
            call.set_float(PHASE_MODULATION_AT, 1.7 - 0.61 * i as f32);
        }
        NES => call.set_word(BITS_AT, 2 + i as u32),
        CLASSIC => call.set_flags(SHAPES[i % SHAPES.len()]),
        _ => {}
    }
    job(&call)
}

/// Each record is played from the state that the one before it left.
fn carried(kind: u8) -> Vec<Job> {
    (0..BLOCKS.len()).map(|i| sound(kind, i)).collect()
}

/// A refusal by each number, with a sound record after each.
fn among_refused(kind: u8) -> Vec<Job> {
    let mut jobs = vec![sound(kind, 0)];
    for (i, fault) in faults(kind).into_iter().enumerate() {
        let mut refused = sound(kind, i);
        fault(&mut refused);
        jobs.extend([refused, sound(kind, i + 1)]);
    }
    jobs
}

/// Malformed, too long, a number that is none; and of the string a frequency that is too high.
pub fn faults(kind: u8) -> Vec<fn(&mut Job)> {
    let mut faults: Vec<fn(&mut Job)> =
        vec![|job| job[63] = 1, |job| set_length(job, 4097), |job| {
            set_word(job, FREQUENCY_AT, f32::NAN.to_bits())
        }];
    if kind == STRING {
        faults.push(|job| set_word(job, FREQUENCY_AT, 0.6f32.to_bits()));
    }
    faults
}

/// No sample, and the most that are answered.
fn lengths(kind: u8) -> Vec<Job> {
    let with = |i: usize, length: u16| {
        let mut job = sound(kind, i);
        set_length(&mut job, length);
        job
    };
    vec![with(0, 0), with(1, 4096), with(2, 0), sound(kind, 3)]
}

/// All kinds in turns: each has a state of its own.
fn in_turns(kinds: &[u8]) -> Vec<Job> {
    let turn = |i: usize| kinds.iter().map(move |&kind| sound(kind, i));
    (0..4).flat_map(turn).collect()
}

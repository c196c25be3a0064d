//! Each field of a record changed alone: its values are ones that every field of the kind may have,
//! so that a field which is read from another's place shows in the counts and in nothing else.

use super::damage::{set_length, set_word};
use crate::calls::make::fields::{choices, settings};
use crate::calls::record::*;
use crate::lists::job::{job, Job};

const VALUES: [f32; 4] = [0.017, 0.23, 0.55, 0.96];
const STEP_COUNTS: [u32; 6] = [2, 4, 32, 256, 1024, 65_536];
/// Short blocks: a width shows where a block ends between an edge and the one at another width.
const BLOCK: u16 = 5;
const BLOCKS: usize = 7;

/// No field is above it: a string above 0.5 is too high.
fn most(kind: u8) -> f32 {
    if kind == STRING {
        0.5
    } else {
        1.0
    }
}

/// No two fields are the same.
fn base(kind: u8) -> Job {
    let mut call = Record::of_kind(kind);
    for (i, field) in settings(kind).into_iter().enumerate() {
        call.set_float(field.at, (0.113 + 0.071 * i as f32) * most(kind));
    }
    if kind == NES {
        call.set_word(BITS_AT, 4);
    }
    let mut job = job(&call);
    set_length(&mut job, BLOCK);
    job
}

/// For each value of each field a list: blocks of the changed record, then one of the base. Those of
/// the variable shape come with each choice of flags, those of the classic with each shape.
pub fn lists(kind: u8) -> Vec<Vec<u8>> {
    let mut lists = Vec::new();
    for flags in 0..choices(kind) {
        let mut base = base(kind);
        base[1] = flags;
        for changed in changed(&base) {
            let blocks = [vec![changed; BLOCKS], vec![base]].concat();
            lists.push(blocks.concat());
        }
    }
    lists
}

/// The record itself, and with each value of each field.
fn changed(base: &Job) -> Vec<Job> {
    let mut jobs = vec![*base];
    let value = |part: f32| (part * most(base[0])).to_bits();
    for field in settings(base[0]) {
        let words = match field.at {
            BITS_AT => STEP_COUNTS.to_vec(),
            _ => VALUES.map(value).to_vec(),
        };
        for word in words {
            let mut job = *base;
            set_word(&mut job, field.at, word);
            jobs.push(job);
        }
    }
    jobs
}

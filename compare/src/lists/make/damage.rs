//! Damage to a record: each fault that makes it malformed, one at a time, and several faults of any
//! sort by chance. Which bytes a kind does not use is read off the fields of its calls, so that the
//! maker does not lean on the check that it tries.

use super::sound;
use crate::calls::make::fields::{choices, settings};
use crate::calls::record::*;
use crate::lists::job::{Job, JOB_BYTES};
use crate::random::Random;

const NO_KINDS: [u8; 5] = [0, 7, 8, 9, 255];

/// Step counts with one bit or none, and ones in which a test of only some bits finds one.
const STEP_COUNTS: [u32; 14] = [
    0,
    1,
    3,
    15,
    17,
    65_535,
    65_537,
    131_072,
    131_074,
    262_144,
    0x0100_0000,
    0x8000_0000,
    0x8000_0010,
    u32::MAX,
];

/// The bytes that this kind's records hold no field in.
pub fn unused(kind: u8) -> Vec<usize> {
    let fields = settings(kind);
    let used = |at: usize| match at {
        0 | 2 | 3 => true,
        1 => choices(kind) > 1,
        _ => fields
            .iter()
            .any(|field| (field.at..field.at + 4).contains(&at)),
    };
    (0..JOB_BYTES).filter(|&at| !used(at)).collect()
}

/// Records that are sound save for one fault, which makes them malformed.
pub fn malformed(kind: u8) -> Vec<Job> {
    let with = |at: usize, byte: u8| {
        let mut job = sound(kind);
        job[at] = byte;
        job
    };
    let no_kinds = (0..=255).filter(|&byte| !(1..=6).contains(&byte));
    let mut jobs: Vec<Job> = no_kinds.map(|byte| with(0, byte)).collect();
    jobs.extend((choices(kind)..=255).map(|byte| with(1, byte)));
    for at in unused(kind).into_iter().filter(|&at| at > 1) {
        jobs.extend((0..8).map(|bit| with(at, 1 << bit)));
        jobs.push(with(at, 255));
    }
    if kind == NES {
        jobs.extend(bad_step_counts().into_iter().map(with_steps));
    }
    jobs
}

/// The counts above, and every pair of bits among the lowest 18.
pub fn bad_step_counts() -> Vec<u32> {
    let pairs = (1..18).flat_map(|high| (0..high).map(move |low| (1 << high) | (1 << low)));
    let mut counts: Vec<u32> = pairs.chain(STEP_COUNTS).collect();
    counts.sort_unstable();
    counts.dedup();
    counts
}

/// A sound NES record but for its step count.
pub fn with_steps(count: u32) -> Job {
    let mut job = sound(NES);
    set_word(&mut job, BITS_AT, count);
    job
}

pub fn set_word(job: &mut Job, at: usize, word: u32) {
    job[at..at + 4].copy_from_slice(&word.to_le_bytes());
}

pub fn set_length(job: &mut Job, length: u16) {
    job[LENGTH_AT..LENGTH_AT + 2].copy_from_slice(&length.to_le_bytes());
}

/// One to three faults of any sort; now and then one of them is none.
pub fn damage(job: &mut Job, random: &mut Random) {
    let kind = job[0];
    for _ in 0..1 + random.below(3) {
        match random.below(10) {
            0 => job[0] = random.pick(&NO_KINDS),
            1 => job[0] = random.below(9) as u8,
            2 => job[1] = random.pick(&[1, 2, 3, 4, 5, 7, 8, 128, 255]),
            3 => job[random.pick(&unused(kind))] = random.pick(&[1, 2, 128, 255]),
            4 => set_word(job, BITS_AT, random.pick(&STEP_COUNTS)),
            5 => set_length(job, random.pick(&[4097, 4098, 8192, 32_768, 65_535])),
            _ => {
                let field = random.pick(&settings(kind));
                set_word(job, field.at, field.holds.damaged(random));
            }
        }
    }
}

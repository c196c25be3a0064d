//! The lists that are made whatever the seed is.

use super::damage::{malformed, set_length, set_word, with_steps};
use super::{late, runs, sound};
use crate::calls::make::drifts::drifts;
use crate::calls::make::fields::{choices, frequencies, settings, Field, Holds};
use crate::calls::record::*;
use crate::calls::Kinds;
use crate::lists::job::{job, Job, JOB_BYTES};
use crate::random::Random;

const MOST_RECORDS: usize = 1024;

/// Lengths of lists in bytes, around the ends of a record and of what is answered at all.
const SIZES: [usize; 14] = [
    0, 1, 63, 64, 65, 127, 128, 65_472, 65_535, 65_536, 65_537, 65_599, 65_600, 70_000,
];

const BLOCK_LENGTHS: [u16; 13] = [
    0, 1, 2, 63, 64, 65, 4095, 4096, 4097, 8192, 8193, 32_768, 65_535,
];

pub fn lists() -> Vec<Vec<u8>> {
    let mut lists = vec![example().concat()];
    lists.extend(SIZES.map(of_size));
    lists.push(every_kind_byte().concat());
    for kind in Kinds::all().list() {
        lists.extend(between_sound_ones(kind, &malformed(kind)));
        lists.extend(between_sound_ones(kind, &at_ends(kind)));
        lists.push(several_faults(kind).concat());
        lists.push(drifting(kind).concat());
        let mut random = Random::new(u64::from(kind));
        lists.push(runs::run(&[kind], MOST_RECORDS, &mut random).concat());
    }
    lists.push(depths().concat());
    lists.push(most_work().concat());
    lists.extend(Kinds::all().list().into_iter().flat_map(late::lists));
    lists
}

/// The request's example: NES, string and saw, of which the string is too high.
pub fn example() -> Vec<Job> {
    let record = |kind: u8, length: u16, words: &[(usize, u32)]| {
        let mut job = [0; JOB_BYTES];
        job[0] = kind;
        set_length(&mut job, length);
        for &(at, word) in words {
            set_word(&mut job, at, word);
        }
        job
    };
    let [quarter, half, high, one] = [0.25f32, 0.5, 0.75, 1.0].map(f32::to_bits);
    vec![
        record(NES, 8, &[(BITS_AT, 16), (FREQUENCY_AT, quarter)]),
        record(STRING, 4, &[(FREQUENCY_AT, high), (MASTER_OR_GAIN_AT, one)]),
        record(
            SAW,
            4,
            &[(FREQUENCY_AT, quarter), (WIDTH_OR_SHAPE_AT, half)],
        ),
    ]
}

/// Sound records of all kinds in turn, cut off at this many bytes.
pub fn of_size(bytes: usize) -> Vec<u8> {
    let all = Kinds::all().list();
    let jobs = all.into_iter().cycle().map(sound);
    jobs.flatten().take(bytes).collect()
}

/// A frequency alone is all that some kinds need: the others miss a step count, which is malformed,
/// or a master's frequency, which is not.
pub fn every_kind_byte() -> Vec<Job> {
    let with_kind = |kind: u8| {
        let mut job = [0; JOB_BYTES];
        job[0] = kind;
        set_length(&mut job, 5);
        set_word(&mut job, FREQUENCY_AT, 0.11f32.to_bits());
        job
    };
    (0..=255).map(with_kind).collect()
}

/// Each record, and after it a sound one of this kind that tells whether the state was kept; in as
/// many lists as that takes.
pub fn between_sound_ones(kind: u8, jobs: &[Job]) -> Vec<Vec<u8>> {
    let list = |jobs: &[Job]| -> Vec<u8> {
        let pairs = jobs.iter().map(|&job| [job, sound(kind)]);
        pairs.flatten().flatten().collect()
    };
    jobs.chunks(MOST_RECORDS / 2).map(list).collect()
}

/// Each setting at each end of its range, one float below it and one above it, and as no number;
/// every block length and every step count that matter. None of these records is malformed.
pub fn at_ends(kind: u8) -> Vec<Job> {
    let mut jobs = Vec::new();
    let turns = [(0.0625, 0.125), (0.25, 0.5)].map(|(low, high)| Field {
        at: FREQUENCY_AT,
        holds: Holds::UpTo(low, high),
    });
    for field in settings(kind).into_iter().chain(turns) {
        if matches!(field.holds, Holds::Whole(..)) {
            continue;
        }
        for word in field.holds.boundaries() {
            let mut job = sound(kind);
            set_word(&mut job, field.at, word);
            if choices(kind) > 1 {
                job[1] = jobs.len() as u8 % choices(kind);
            }
            jobs.push(job);
        }
    }
    for length in BLOCK_LENGTHS {
        let mut job = sound(kind);
        set_length(&mut job, length);
        jobs.push(job);
    }
    if kind == NES {
        jobs.extend((1..=16).map(|bits| with_steps(1 << bits)));
    }
    jobs
}

/// A fault with the answer that it is refused by.
type Fault = (u8, fn(&mut Job));

/// The faults that a record of this kind can have, in the order in which they are looked for.
pub fn faults(kind: u8) -> Vec<Fault> {
    let mut faults: Vec<Fault> = vec![(7, |job| job[63] = 1), (1, |job| set_length(job, 4097))];
    match kind {
        NES => faults.push((3, |job| set_word(job, BITS_AT, 2))),
        STRING => {
            faults.push((4, |job| set_word(job, MASTER_OR_GAIN_AT, 5f32.to_bits())));
            faults.push((5, |job| set_word(job, FREQUENCY_AT, 0.75f32.to_bits())));
            return faults;
        }
        _ => {}
    }
    faults.push((4, |job| set_word(job, FREQUENCY_AT, 2f32.to_bits())));
    faults
}

/// Every choice of faults in one record, with a block of some samples and with an empty one. Before
/// each stands a sound record, which for the NES triangle leaves a step that two steps do not have.
pub fn several_faults(kind: u8) -> Vec<Job> {
    let faults = faults(kind);
    let before = match kind {
        NES => with_steps(65_536),
        _ => sound(kind),
    };
    let mut jobs = Vec::new();
    for length in [7, 0] {
        for choice in 0..1 << faults.len() {
            let mut job = before;
            set_length(&mut job, length);
            for (i, (_, fault)) in faults.iter().enumerate() {
                if choice >> i & 1 == 1 {
                    fault(&mut job);
                }
            }
            jobs.extend([before, job]);
        }
    }
    jobs
}

/// Two samples bring the frequency to where a drift begins; then the drift or its neighbour.
pub fn drifting(kind: u8) -> Vec<Job> {
    let mut jobs = Vec::new();
    for call in drifts(kind) {
        let mut settle = call;
        settle.set_length(1);
        for &(word, setting) in frequencies(kind) {
            let part = if kind == STRING { 0.125 } else { 1.0 };
            let begin = call.float(state_at(word)) * part;
            settle.set_float(setting, settle.float(setting).max(begin));
        }
        jobs.extend([job(&settle), job(&settle), job(&call), sound(kind)]);
    }
    jobs
}

/// A step that many steps leave, met by every step count; then the same from fewer and fewer.
pub fn depths() -> Vec<Job> {
    let counts: Vec<u32> = (1..=16).map(|bits| 1 << bits).collect();
    let mut jobs = Vec::new();
    for &before in counts.iter().rev() {
        for &count in &counts {
            jobs.extend([with_steps(before), with_steps(count)]);
        }
    }
    jobs
}

/// As many records of as many samples as are answered, of all kinds in turn and at high frequencies.
fn most_work() -> Vec<Job> {
    let long = |kind: u8| {
        let mut job = match kind {
            NES => with_steps(65_536),
            _ => sound(kind),
        };
        set_length(&mut job, 4096);
        set_word(&mut job, FREQUENCY_AT, 0.25f32.to_bits());
        if kind == SHAPE {
            job[1] = 3;
            set_word(&mut job, MASTER_OR_GAIN_AT, 0.23f32.to_bits());
        }
        job
    };
    let all = Kinds::all().list();
    let kinds = all.into_iter().cycle().take(MOST_RECORDS);
    kinds.map(long).collect()
}

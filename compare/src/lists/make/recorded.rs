//! The lists that are recorded beside the program `lists`. They show all that a text can show, in
//! short blocks.

use super::damage::{bad_step_counts, set_word, unused, with_steps};
use super::fixed::{
    at_ends, between_sound_ones, depths, drifting, example, faults, of_size, several_faults,
};
use super::{changes, late, runs, sound, starts, ways};
use crate::calls::make::fields::{settings, Holds};
use crate::calls::record::*;
use crate::calls::Kinds;
use crate::lists::framed::frame;
use crate::lists::job::Job;
use crate::random::Random;

/// Lengths of lists in bytes, around the ends of a record and of what is answered at all.
const SIZES: [usize; 10] = [0, 1, 63, 64, 65, 127, 128, 65_536, 65_537, 65_600];
const RUN: usize = 128;

/// The lists in one stream, and after them one that is cut short, for which nothing is printed.
pub fn stream() -> Vec<u8> {
    let cut_short = &frame(&sound(SAW).repeat(2))[..100];
    let framed: Vec<u8> = lists().iter().flat_map(|list| frame(list)).collect();
    [&framed, cut_short].concat()
}

pub fn lists() -> Vec<Vec<u8>> {
    let mut lists = vec![example().concat()];
    lists.extend(SIZES.map(of_size));
    for kind in Kinds::all().list() {
        lists.extend(of_kind(kind));
    }
    let all = Kinds::all().list();
    lists.push(runs::run(&all, 2 * RUN, &mut Random::new(0)).concat());
    lists.extend(all.into_iter().flat_map(late::lists));
    lists
}

/// The lists in which one kind is tried.
pub fn of_kind(kind: u8) -> Vec<Vec<u8>> {
    let mut lists = starts::lists(kind);
    lists.extend(changes::lists(kind));
    lists.push(every_kind_byte(kind).concat());
    lists.extend(between_sound_ones(kind, &nonzero_bytes(kind)));
    lists.extend(between_sound_ones(kind, &at_ends(kind)));
    lists.extend(between_sound_ones(kind, &beyond_the_end(kind)));
    lists.push(several_faults(kind).concat());
    lists.push(drifting(kind).concat());
    lists.extend(ways::lists(kind));
    lists.extend(refused(kind).iter().map(|(_, jobs)| among_all(jobs)));
    match kind {
        SHAPE | CLASSIC => lists.push(every_flag(kind).concat()),
        NES => lists.extend([step_counts().concat(), depths().concat()]),
        _ => {}
    }
    lists.push(runs::run(&[kind], RUN, &mut Random::new(u64::from(kind))).concat());
    lists
}

fn every_flag(kind: u8) -> Vec<Job> {
    let with_flags = |flags: u8| {
        let mut job = sound(kind);
        job[1] = flags;
        job
    };
    (0..=255).map(with_flags).collect()
}

/// A record that is sound for one kind, with every kind byte.
fn every_kind_byte(kind: u8) -> Vec<Job> {
    let with_kind = |byte: u8| {
        let mut job = sound(kind);
        job[0] = byte;
        job
    };
    (0..=255).map(with_kind).collect()
}

/// Each byte that a kind leaves unused, with its lowest and with its highest bit.
fn nonzero_bytes(kind: u8) -> Vec<Job> {
    let mut jobs = Vec::new();
    for at in unused(kind) {
        for byte in [1, 128] {
            let mut job = sound(kind);
            job[at] = byte;
            jobs.push(job);
        }
    }
    jobs
}

/// Each setting above the end of its range by one bit, which stands in its first byte, its second or
/// its third; the fourth tells numbers from what is none.
fn beyond_the_end(kind: u8) -> Vec<Job> {
    let mut jobs = Vec::new();
    for field in settings(kind) {
        let Holds::UpTo(_, high) = field.holds else {
            continue;
        };
        for bit in [0, 8, 16] {
            let mut job = sound(kind);
            set_word(&mut job, field.at, high.to_bits() | 1 << bit);
            jobs.push(job);
        }
    }
    jobs
}

/// The malformed counts, each with a sound record after it; then each count of one bit, the most
/// steps last, since a step that a deeper call left is a bad state for a flatter one.
fn step_counts() -> Vec<Job> {
    let bad = bad_step_counts().into_iter().map(with_steps);
    let mut jobs: Vec<Job> = bad.flat_map(|job| [job, sound(NES)]).collect();
    jobs.extend((0..32).map(|bit| with_steps(1 << bit)));
    jobs
}

/// A record that is answered; of the NES triangle one that leaves a step which two steps do not have.
fn played(kind: u8) -> Job {
    match kind {
        NES => with_steps(65_536),
        _ => sound(kind),
    }
}

/// For each number that this kind is refused by a record; before a Drift those that lead to it.
pub fn refused(kind: u8) -> Vec<(u8, Vec<Job>)> {
    let with = |fault: fn(&mut Job)| {
        let mut job = played(kind);
        fault(&mut job);
        vec![job]
    };
    let faults = faults(kind).into_iter();
    let drift = ways::drifts(kind).swap_remove(0);
    faults
        .map(|(number, fault)| (number, with(fault)))
        .chain([(6, drift.to_vec())])
        .collect()
}

/// The records stand among answered ones of every kind, whose lines tell that all states are kept.
pub fn among_all(jobs: &[Job]) -> Vec<u8> {
    let all: Vec<Job> = Kinds::all().list().into_iter().map(played).collect();
    [&all, &all, jobs, &all, &all, &all].concat().concat()
}

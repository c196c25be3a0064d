//! Random lists: runs of records whose settings are kept or changed, so that states are carried
//! far, with refused records among them; runs in which crossings and resets meet; and noise.

use super::damage::{damage, set_word, unused};
use super::meetings;
use crate::calls::make::fields::choices;
use crate::calls::make::fixed::plain;
use crate::calls::make::setups::choose_settings;
use crate::calls::record::*;
use crate::calls::Kinds;
use crate::lists::job::{job, Job, JOB_BYTES};
use crate::random::Random;

const ALL: [u8; 6] = [SHAPE, SAW, SUPER_SQUARE, NES, STRING, CLASSIC];
const LOWEST: f32 = 0.000001;

pub fn list(random: &mut Random) -> Vec<u8> {
    let length = list_length(random);
    let jobs = match random.below(8) {
        0 => (0..length).map(|_| noise(random)).collect(),
        1..=3 => run(&[random.pick(&ALL)], length, random),
        4 => meetings::run(length, random),
        _ => run(&ALL, length, random),
    };
    let mut list = jobs.concat();
    if random.one_in(32) {
        let further = 1 + random.below(63);
        list.extend((0..further).map(|_| random.bits() as u8));
    }
    list
}

fn list_length(random: &mut Random) -> usize {
    let most = match random.below(32) {
        0 => 1024,
        1..=3 => 256,
        _ => 32,
    };
    random.below(most + 1) as usize
}

/// Records of the kinds given, some of them damaged; how many is up to the run.
pub fn run(kinds: &[u8], length: usize, random: &mut Random) -> Vec<Job> {
    let mut settings = Settings::new(random);
    let damaged_one_in = random.pick(&[3, 8, 8, 40]);
    let mut jobs = Vec::new();
    for _ in 0..length {
        let mut job = settings.next(random.pick(kinds), random);
        if random.one_in(damaged_one_in) {
            damage(&mut job, random);
        }
        jobs.push(job);
    }
    jobs
}

/// For each kind, by its number, the call that was last asked for; and the NES triangle's depth,
/// which only grows: a step that a deeper call left would refuse all later ones.
struct Settings {
    last: [Record; Kinds::COUNT as usize + 1],
    depth: u32,
}

impl Settings {
    fn new(random: &mut Random) -> Self {
        Settings {
            last: [0, 1, 2, 3, 4, 5, 6].map(plain),
            depth: 1 + random.below(16),
        }
    }

    /// A sound record, save that a lower depth now and then meets too high a step.
    fn next(&mut self, kind: u8, random: &mut Random) -> Job {
        let call = &mut self.last[usize::from(kind)];
        call.set_length(block_length(random));
        match random.below(32) {
            0..=7 => choose_settings(call, random),
            8..=11 => on_a_grid(call, random),
            12 | 13 => fast(call, random),
            14 => slow(call, random),
            _ => {}
        }
        if kind == NES {
            call.set_word(BITS_AT, self.depth);
            match random.below(64) {
                0 => self.depth += random.below(17 - self.depth),
                1..=6 => call.set_word(BITS_AT, 1 + random.below(self.depth)),
                _ => {}
            }
        }
        job(call)
    }
}

/// Most blocks are short; the longest that is answered is rare, and so is none.
fn block_length(random: &mut Random) -> u16 {
    match random.below(64) {
        0 => random.pick(&[4095, 4096]),
        1 | 2 => 0,
        3..=15 => 1 + random.below(4) as u16,
        _ => 1 + random.below(100) as u16,
    }
}

/// Settings in parts of 1/64, so that a phase meets a crossing exactly, and a width may move by as
/// much as the frequency.
fn on_a_grid(call: &mut Record, random: &mut Random) {
    let mut part = |most: u32| (1 + random.below(most)) as f32 / 64.0;
    match call.kind() {
        STRING => return call.set_float(FREQUENCY_AT, part(16) / 8.0),
        SHAPE => call.set_float(MASTER_OR_GAIN_AT, part(16)),
        _ => {}
    }
    call.set_float(FREQUENCY_AT, part(16));
    match call.kind() {
        SHAPE | SAW => {
            call.set_float(WIDTH_OR_SHAPE_AT, part(63));
            call.set_float(WAVESHAPE_AT, part(63));
        }
        CLASSIC => call.set_float(WIDTH_OR_SHAPE_AT, part(63)),
        _ => {}
    }
}

/// One sample brings the frequencies high up.
fn fast(call: &mut Record, random: &mut Random) {
    set_frequencies(call, random.between(0.1, 0.27));
    call.set_length(1);
}

/// A long way down to the lowest frequency, on which rounding may make a Drift.
fn slow(call: &mut Record, random: &mut Random) {
    set_frequencies(call, LOWEST);
    call.set_length(random.pick(&[4096, 4095, 3000, 2048]));
}

fn set_frequencies(call: &mut Record, frequency: f32) {
    match call.kind() {
        STRING => return call.set_float(FREQUENCY_AT, (frequency / 4.0).max(LOWEST)),
        SHAPE => call.set_float(MASTER_OR_GAIN_AT, frequency),
        _ => {}
    }
    call.set_float(FREQUENCY_AT, frequency);
}

/// Any bytes; in half of the records only where the kind has a field, so that they are not
/// malformed.
fn noise(random: &mut Random) -> Job {
    let mut job = [0; JOB_BYTES].map(|_: u8| random.bits() as u8);
    job[0] = random.below(9) as u8;
    if random.one_in(2) {
        job[0] = random.pick(&ALL);
        job[1] %= choices(job[0]);
        for at in unused(job[0]) {
            job[at] = 0;
        }
        if job[0] == NES {
            set_word(&mut job, BITS_AT, 2 << random.below(16));
        }
    }
    if random.one_in(2) {
        job[3] &= 15;
    }
    job
}

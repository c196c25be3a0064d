//! Inputs of the program `stem`: a rate, four bytes, and a job list. First fixed ones, then random
//! ones.

use crate::calls::record::*;
use crate::calls::Kinds;
use crate::heard::{faults, sound};
use crate::lists::job::{Job, JOB_BYTES};
use crate::lists::make::damage::{set_length, set_word, with_steps};
use crate::lists::make::{fixed, lists};
use crate::random::Random;

/// Rates that are answered, the ends among them, and one of which no two bytes are the same.
const RATES: [u32; 8] = [48_000, 44_100, 1, 384_000, 22_050, 89_407, 192_000, 8_000];
/// Rates that are refused. With its bytes in another order the first would be answered.
const BAD_RATES: [u32; 5] = [0x0100_0000, 0, 384_001, 0x8000_bb80, u32::MAX];
/// The longest block that is answered.
const LONGEST: u16 = 4096;

/// The fixed inputs and `count` random ones.
pub fn inputs(count: u64, seed: u64) -> impl Iterator<Item = Vec<u8>> {
    let mut random = Random::new(seed);
    let fixed_lists = lists(0, 0).count();
    let random_lists = lists(count as usize, seed).skip(fixed_lists);
    let random_inputs = random_lists.map(move |list| input(rate(&mut random), &list));
    fixed_inputs().into_iter().chain(random_inputs)
}

fn input(rate: u32, list: &[u8]) -> Vec<u8> {
    [&rate.to_le_bytes(), list].concat()
}

fn rate(random: &mut Random) -> u32 {
    match random.below(8) {
        0 => random.pick(&BAD_RATES),
        1 => random.pick(&RATES),
        _ => 1 + random.below(384_000),
    }
}

fn fixed_inputs() -> Vec<Vec<u8>> {
    let rates = RATES.into_iter().cycle();
    let of_lists = rates.zip(lists(0, 0));
    let mut inputs: Vec<Vec<u8>> = of_lists.map(|(rate, list)| input(rate, &list)).collect();
    let example = fixed::example().concat();
    for list in [&example[..], &[]] {
        let rates = RATES.into_iter().chain(BAD_RATES);
        inputs.extend(rates.map(|rate| input(rate, list)));
    }
    inputs.extend((0..4).map(|bytes| RATES[5].to_le_bytes()[..bytes].to_vec()));
    inputs.extend([1, 63, 65, 65_600].map(|bytes| input(0, &fixed::of_size(bytes))));
    inputs.push(recorded());
    inputs.extend(around_the_most().map(|list| input(RATES[0], &list)));
    let no_number = no_number().concat();
    inputs.extend([RATES[0], 0].map(|rate| input(rate, &no_number)));
    inputs.push(input(RATES[0], &[no_number, vec![0]].concat()));
    inputs
}

/// The input that stands beside the program: all kinds in turns, and among them refusals by each
/// number that a string can have, and an empty block.
pub fn recorded() -> Vec<u8> {
    let kinds = Kinds::all().list();
    let turn = |i: usize| kinds.iter().map(move |&kind| sound(kind, i));
    let mut jobs: Vec<Job> = turn(0).chain(turn(1)).collect();
    for (i, fault) in faults(STRING).into_iter().enumerate() {
        let mut refused = sound(STRING, i);
        fault(&mut refused);
        jobs.extend([refused, sound(STRING, i + 1)]);
    }
    jobs.push(of_length(sound(SAW, 2), 0));
    jobs.extend(turn(5));
    input(RATES[1], &jobs.concat())
}

fn of_length(mut job: Job, length: u16) -> Job {
    set_length(&mut job, length);
    job
}

/// As many samples as a stem may have, with refused records and an empty block, which count nothing;
/// one sample more; and the same with a refused record as the last.
pub fn around_the_most() -> [Vec<u8>; 3] {
    let long = |kind: u8| match kind {
        NES => of_length(with_steps(65_536), LONGEST),
        _ => of_length(sound(kind, 3), LONGEST),
    };
    let kinds = Kinds::all().list().into_iter().cycle();
    let most: Vec<Job> = kinds.map(long).take(256).collect();
    let too_long = of_length(sound(SAW, 0), LONGEST + 1);
    let (none, one) = (of_length(sound(SAW, 1), 0), of_length(sound(STRING, 0), 1));
    let with = |more: &[Job]| [&most, more].concat().concat();
    [
        with(&[too_long, none, [0; JOB_BYTES]]),
        with(&[one]),
        with(&[one, too_long]),
    ]
}

/// A list whose last sample is a NaN. The width moves by exactly the frequency, so that the saw
/// divides by 0, and the phase, one float below the width before, rounds up to the one after.
pub fn no_number() -> Vec<Job> {
    let step = f32::from_bits(0x3280_0000); // 2^-26, the distance of floats from 0.125 to 0.25
    let saw = |frequency: f32, width: f32| {
        let mut job = [0; JOB_BYTES];
        job[0] = SAW;
        set_length(&mut job, 1);
        set_word(&mut job, FREQUENCY_AT, frequency.to_bits());
        set_word(&mut job, WIDTH_OR_SHAPE_AT, width.to_bits());
        job
    };
    let before = saw(0.0625, 0.1875 + step);
    let last = saw(0.125 + 3.0 * step, 0.3125 + 4.0 * step);
    vec![before, before, before, last]
}

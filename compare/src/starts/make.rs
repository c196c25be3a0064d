//! Records of states with a phase or a sample rate: first fixed ones, then random ones.

use super::{Record, STATE_WORDS};
use crate::calls::{starting_words, CLASSIC, SHAPE};
use crate::random::Random;

/// Where the word of `high` stands, the only one that is no float.
const HIGH: usize = 4;

/// Phases that are answered: both zeros, the ends of the subnormal numbers, the smallest normal one,
/// 0.25, 0.5, and the two floats below 1.
const ANSWERED: [u32; 9] = [
    0x0000_0000,
    0x8000_0000,
    0x0000_0001,
    0x007f_ffff,
    0x0080_0000,
    0x3e80_0000,
    0x3f00_0000,
    0x3f7f_fffe,
    0x3f7f_ffff,
];

/// Phases that are refused: 1 and floats above it, floats below 0 from the first one on, infinities,
/// and NaN, quiet and signalling, of both signs.
const REFUSED: [u32; 18] = [
    0x3f80_0000,
    0x3f80_0001,
    0x4000_0000,
    0x7f7f_ffff,
    0x7f80_0000,
    0x8000_0001,
    0x8080_0000,
    0xbf00_0000,
    0xbf80_0000,
    0xff7f_ffff,
    0xff80_0000,
    0x7fc0_0000,
    0xffc0_0000,
    0x7f80_0001,
    0xff80_0001,
    0x7fbf_ffff,
    0x7fff_ffff,
    0xffff_ffff,
];

/// Sample rates that are answered: usual ones, both ends with the floats inside, and one at which the
/// coefficient rounds.
const ANSWERED_RATES: [f32; 10] = [
    44_100.0,
    48_000.0,
    8_000.0,
    8_000.000_5,
    384_000.0,
    383_999.97,
    11_025.0,
    96_000.0,
    192_000.0,
    12_345.678,
];

/// Sample rates that are refused and are no phases' words: the floats outside both ends, rates beyond
/// them, and negative ones.
const REFUSED_RATES: [f32; 8] = [
    7_999.999_5,
    384_000.03,
    384_001.0,
    7_999.0,
    44.1,
    1_000_000.0,
    -48_000.0,
    -8_000.0,
];

/// Words that stand for a bool, and words that stand for none.
const FLAGS: [u32; 7] = [0, 1, 2, 3, 0x3f80_0000, 0x8000_0000, 0xffff_ffff];

/// NaN, quiet and signalling, infinities, -1 and -0.0.
const ODD: [u32; 8] = [
    0x7fc0_0000,
    0xffff_ffff,
    0x7f80_0001,
    0xff80_0001,
    0x7f80_0000,
    0xff80_0000,
    0xbf80_0000,
    0x8000_0000,
];

/// A state in its range in which no two words are equal, so that a word in another's place shows.
const PLAIN: [u32; STATE_WORDS] = [
    0x3e00_0000,
    0x3e80_0000,
    0x3ec0_0000,
    0x3f20_0000,
    0x0000_0001,
    0x3d80_0000,
    0x3dc0_0000,
    0x3f40_0000,
    0x3f60_0000,
    0x40a0_0000,
];

/// The fixed records, cut or followed by random ones so that there are `count`.
pub(super) fn records(count: usize, seed: u64) -> Vec<Record> {
    let mut records = fixed();
    records.truncate(count);
    let mut random = Random::new(seed);
    while records.len() < count {
        records.push(random_record(&mut random));
    }
    records
}

/// Every phase and every rate on the plain state; then every state with a phase that is answered, one
/// that is refused, and a rate that is answered.
fn fixed() -> Vec<Record> {
    let on_plain = |given: u32| Record {
        state: PLAIN,
        given,
    };
    let mut records: Vec<Record> = phases().into_iter().map(on_plain).collect();
    let rates = ANSWERED_RATES.into_iter().chain(REFUSED_RATES);
    records.extend(rates.map(|rate| on_plain(rate.to_bits())));
    for state in states() {
        for given in [0.5, 1.0, ANSWERED_RATES[0]].map(f32::to_bits) {
            records.push(Record { state, given });
        }
    }
    records
}

/// The phases that are answered, then those that are refused.
pub fn phases() -> Vec<u32> {
    ANSWERED.into_iter().chain(REFUSED).collect()
}

/// The rates that are answered, then those that are refused, and what is refused as a phase too.
pub fn rates() -> Vec<u32> {
    let rates = ANSWERED_RATES.into_iter().chain(REFUSED_RATES);
    let mut words: Vec<u32> = rates.map(f32::to_bits).collect();
    words.extend([0, 0x8000_0000, 1]);
    words.extend(REFUSED);
    words
}

/// The two starting states of the variable shape and of the classic, states of one odd word alone, and
/// the plain one with an odd word in each place.
pub fn states() -> Vec<[u32; STATE_WORDS]> {
    let starts = [(SHAPE, false), (SHAPE, true), (CLASSIC, true)];
    let mut states: Vec<[u32; STATE_WORDS]> = starts
        .map(|(kind, initialised)| starting_words(kind, initialised))
        .iter()
        .map(|words| std::array::from_fn(|i| words.get(i).copied().unwrap_or(0)))
        .collect();
    states.extend(ODD.map(|word| [word; STATE_WORDS]));
    states.extend(FLAGS.map(|word| with(HIGH, word)));
    let floats = (0..STATE_WORDS).filter(|&at| at != HIGH);
    states.extend(floats.map(|at| with(at, ODD[at % ODD.len()])));
    states
}

/// The plain state with this word in this place.
fn with(at: usize, word: u32) -> [u32; STATE_WORDS] {
    let mut state = PLAIN;
    state[at] = word;
    state
}

/// One word in two is a phase, the others are rates.
fn random_record(random: &mut Random) -> Record {
    Record {
        state: random_state(random),
        given: match random.below(2) {
            0 => random_phase(random),
            _ => random_rate(random),
        },
    }
}

/// A state of any words.
pub fn random_state(random: &mut Random) -> [u32; STATE_WORDS] {
    let mut state = [0; STATE_WORDS].map(|_| random_word(random));
    state[HIGH] = match random.below(4) {
        0 => random.bits(),
        1 => random.pick(&FLAGS),
        _ => random.below(2),
    };
    state
}

/// Any bits, an odd word, or a number that a state may hold.
fn random_word(random: &mut Random) -> u32 {
    match random.below(4) {
        0 => random.bits(),
        1 => random.pick(&ODD),
        _ => random.between(-1.0, 2.0).to_bits(),
    }
}

/// Any bits, a fixed phase, a phase in its range, or one a few floats away from an end.
pub fn random_phase(random: &mut Random) -> u32 {
    match random.below(5) {
        0 => random.bits(),
        1 => random.pick(&ANSWERED),
        2 => random.pick(&REFUSED),
        3 => random.small(1.0, 150).to_bits(),
        _ => random.pick(&[0x3f7f_fffc, 0, 0x8000_0000]) + random.below(8),
    }
}

/// Any bits, a fixed rate, a rate in its range, or one a few floats away from an end.
pub fn random_rate(random: &mut Random) -> u32 {
    match random.below(6) {
        0 => random.bits(),
        1 => random.pick(&ANSWERED_RATES).to_bits(),
        2 => random.pick(&REFUSED_RATES).to_bits(),
        3 => random.pick(&[8_000.0f32, 384_000.0]).to_bits() - 4 + random.below(9),
        _ => random.between(8_000.0, 384_000.0).to_bits(),
    }
}

#[cfg(test)]
mod tests {
    use super::*;

    #[test]
    fn every_fixed_phase_is_on_its_side_of_the_range() {
        let answered = |bits: &u32| (0.0..1.0).contains(&f32::from_bits(*bits));
        assert!(ANSWERED.iter().all(answered));
        assert!(!REFUSED.iter().any(answered));
    }

    #[test]
    fn every_fixed_rate_is_on_its_side_of_the_range() {
        let answered = |rate: &f32| (8_000.0..=384_000.0).contains(rate);
        assert!(ANSWERED_RATES.iter().all(answered));
        assert!(!REFUSED_RATES.iter().any(answered));
        let ends = [8_000.0f32, 384_000.0];
        assert!(REFUSED_RATES[..2] == [ends[0].next_down(), ends[1].next_up()]);
        assert!(ANSWERED_RATES[2..6] == [ends[0], ends[0].next_up(), ends[1], ends[1].next_down()]);
    }

    #[test]
    fn no_two_words_of_the_plain_state_are_equal() {
        let mut words = PLAIN.to_vec();
        words.sort_unstable();
        words.dedup();
        assert_eq!(words.len(), STATE_WORDS);
    }

    #[test]
    fn the_recorded_file_has_all_fixed_records_and_a_hundred_random_ones() {
        assert_eq!(fixed().len(), 126);
        assert_eq!(records(226, 1).len(), 226);
        assert_eq!(records(10, 1).len(), 10);
        assert_eq!(records(226, 1)[..126], fixed()[..]);
        assert_ne!(records(127, 1)[126], records(127, 2)[126]);
    }

    #[test]
    fn random_records_are_answered_and_refused_and_hold_every_sort_of_word() {
        let records = &records(2126, 1)[126..];
        let count = |test: &dyn Fn(&Record) -> bool| records.iter().filter(|r| test(r)).count();
        let phases = count(&|r| (0.0..1.0).contains(&f32::from_bits(r.given)));
        assert!((300..1000).contains(&phases), "{phases} phases answered");
        let rates = count(&|r| (8_000.0..=384_000.0).contains(&f32::from_bits(r.given)));
        assert!((300..1000).contains(&rates), "{rates} rates answered");
        assert!(count(&|r| f32::from_bits(r.given).is_nan()) > 50);
        assert!(count(&|r| r.state[HIGH] > 1) > 500);
        for at in 0..STATE_WORDS {
            assert!(count(&|r| f32::from_bits(r.state[at]).is_nan()) > 10);
        }
    }
}

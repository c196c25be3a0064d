//! Job records: first fixed ones, then random ones, and a rest that is no whole record. A byte of a
//! fixed record says where it stands, so that a number read from another place shows.

use crate::calls::make::fields::{choices, settings};
use crate::calls::record::*;
use crate::lists::job::{Job, JOB_BYTES};
use crate::lists::make::damage::{bad_step_counts, set_length, set_word, unused};
use crate::random::Random;

const ALL: [u8; 6] = [SHAPE, SAW, SUPER_SQUARE, NES, STRING, CLASSIC];

/// Those of two bits, those of three, and each further bit.
const FLAGS: [u8; 14] = [0, 1, 2, 3, 4, 5, 6, 7, 8, 16, 32, 64, 128, 255];

/// Each number of digits at both its ends, and both bytes alone.
const LENGTHS: [u16; 14] = [
    0, 1, 9, 10, 99, 100, 255, 256, 999, 1000, 4096, 9999, 10_000, 65_535,
];

/// NaN, quiet and signalling, of both signs; infinities, -0.0 and the smallest number above 0.
const ODD: [u32; 8] = [
    0x7fc0_0000,
    0xffff_ffff,
    0x7f80_0001,
    0xff80_0001,
    0x7f80_0000,
    0xff80_0000,
    0x8000_0000,
    0x0000_0001,
];

/// The fixed records, cut or followed by random ones so that there are `count`, and the rest.
pub fn records(count: usize, seed: u64) -> Vec<u8> {
    let mut random = Random::new(seed);
    let mut jobs = fixed();
    jobs.truncate(count);
    while jobs.len() < count {
        jobs.push(random_record(&mut random));
    }
    let mut bytes = jobs.concat();
    let cut = 1 + random.below(JOB_BYTES as u32 - 1) as usize;
    bytes.extend(&random_sound(STRING, &mut random)[..cut]);
    bytes
}

fn fixed() -> Vec<Job> {
    let mut jobs: Vec<Job> = ALL.into_iter().flat_map(of_kind).collect();
    jobs.extend((0..=255).map(of_kind_byte));
    jobs.extend((0..32).map(|bit| with_word(NES, BITS_AT, 1 << bit)));
    let bad_counts = bad_step_counts().into_iter();
    jobs.extend(bad_counts.map(|count| with_word(NES, BITS_AT, count)));
    jobs.extend(LENGTHS.map(|length| {
        let mut job = placed(SAW, 0x40);
        set_length(&mut job, length);
        job
    }));
    // Malformed whatever the kind is, and with a registration all the same.
    jobs.extend((0..=7).map(|kind| {
        let mut job: Job = std::array::from_fn(|at| 0x40 + at as u8);
        job[0] = kind;
        job
    }));
    jobs
}

/// Sound records; then each value of the flags, each unused byte by its lowest and its highest bit,
/// and each float with odd bits.
fn of_kind(kind: u8) -> Vec<Job> {
    let mut jobs = [0x40, 0x80].map(|first| placed(kind, first)).to_vec();
    jobs.extend(FLAGS.map(|flags| with(kind, 1, flags)));
    for at in unused(kind).into_iter().filter(|&at| at > 1) {
        jobs.extend([1, 128].map(|byte| with(kind, at, byte)));
    }
    for at in float_places(kind) {
        jobs.extend(ODD.map(|word| with_word(kind, at, word)));
    }
    jobs
}

/// A sound record whose bytes say where they stand, counted from `first`.
fn placed(kind: u8, first: u8) -> Job {
    let mut job: Job = std::array::from_fn(|at| first + at as u8);
    job[0] = kind;
    job[1] = 0;
    for at in unused(kind) {
        job[at] = 0;
    }
    match kind {
        NES => set_word(&mut job, BITS_AT, 1 << 9),
        CLASSIC => job[1] = 5,
        _ => {}
    }
    job
}

fn with(kind: u8, at: usize, byte: u8) -> Job {
    let mut job = placed(kind, 0x40);
    job[at] = byte;
    job
}

fn with_word(kind: u8, at: usize, word: u32) -> Job {
    let mut job = placed(kind, 0x40);
    set_word(&mut job, at, word);
    job
}

/// Only the bytes that every kind uses, so that the kind alone decides.
fn of_kind_byte(kind: u8) -> Job {
    let mut job = placed(SAW, 0x40);
    job[12..].fill(0);
    job[0] = kind;
    job
}

fn float_places(kind: u8) -> Vec<usize> {
    let places = settings(kind).into_iter().map(|field| field.at);
    places.filter(|&at| at != BITS_AT).collect()
}

/// Half of them sound; the others have a fault, or are noise.
fn random_record(random: &mut Random) -> Job {
    let kind = random.pick(&ALL);
    let mut job = random_sound(kind, random);
    match random.below(12) {
        0 => job[0] = random.bits() as u8,
        1 => job[1] = random.bits() as u8,
        2 => job[random.pick(&unused(kind))] = random.bits() as u8,
        3 => set_word(
            &mut job,
            BITS_AT,
            random.bits() & random.bits() & random.bits(),
        ),
        4 => job = [0; JOB_BYTES].map(|_| random.bits() as u8),
        5 => {
            job = [0; JOB_BYTES].map(|_| random.bits() as u8);
            job[0] = kind;
        }
        _ => {}
    }
    job
}

fn random_sound(kind: u8, random: &mut Random) -> Job {
    let mut job = [0; JOB_BYTES];
    job[0] = kind;
    set_length(&mut job, random.bits() as u16);
    for at in float_places(kind) {
        let word = if random.one_in(4) {
            random.pick(&ODD)
        } else {
            random.bits()
        };
        set_word(&mut job, at, word);
    }
    match kind {
        SHAPE | CLASSIC => job[1] = random.below(choices(kind).into()) as u8,
        NES => set_word(&mut job, BITS_AT, 2 << random.below(16)),
        _ => {}
    }
    job
}

#[cfg(test)]
mod tests {
    use super::*;
    use crate::records::expect::line;

    /// The places that a record of this kind uses, save the kind, the flags and the step count.
    fn used(kind: u8) -> Vec<usize> {
        let unused = unused(kind);
        let is_number = |at: &usize| *at > 1 && !(kind == NES && (4..8).contains(at));
        let used = (0..JOB_BYTES).filter(|at| !unused.contains(at));
        used.filter(is_number).collect()
    }

    fn is_sound(job: &Job) -> bool {
        !line(job).starts_with("0 ")
    }

    #[test]
    fn every_used_byte_shows_and_every_unused_one_is_refused() {
        for kind in ALL {
            let right = line(&placed(kind, 0x40));
            assert!(right.starts_with(&format!("{kind} ")), "{right}");
            for at in used(kind) {
                let changed = line(&with(kind, at, 0));
                assert!(changed != right && changed.starts_with(&right[..2]), "{at}");
            }
            for at in unused(kind) {
                assert!(line(&with(kind, at, 1)).starts_with("0 "), "{kind} {at}");
            }
        }
    }

    #[test]
    fn any_two_used_bytes_in_each_others_place_show() {
        for kind in ALL {
            let right = placed(kind, 0x40);
            let used = used(kind);
            for (i, &a) in used.iter().enumerate() {
                for &b in &used[..i] {
                    let mut swapped = right;
                    swapped.swap(a, b);
                    assert_ne!(line(&swapped), line(&right), "kind {kind}, {a} and {b}");
                }
            }
        }
    }

    #[test]
    fn every_flag_kind_byte_and_step_count_is_sound_or_not() {
        for (kind, count) in [(SHAPE, 4), (SAW, 1), (CLASSIC, 8)] {
            let sound_flags = FLAGS.map(|flags| is_sound(&with(kind, 1, flags)));
            let sound = sound_flags.iter().filter(|&&sound| sound);
            assert_eq!(sound.count(), count, "kind {kind}");
        }
        let kinds: Vec<u8> = (0..=255).filter(|&k| is_sound(&of_kind_byte(k))).collect();
        // The NES triangle has a step count of 0 there.
        assert_eq!(kinds, [SHAPE, SAW, SUPER_SQUARE, STRING, CLASSIC]);
        let bits: Vec<u32> = (0..32)
            .filter(|&bit| is_sound(&with_word(NES, BITS_AT, 1 << bit)))
            .collect();
        assert_eq!(bits, (1..=16).collect::<Vec<u32>>());
    }

    #[test]
    fn the_recorded_file_has_all_fixed_records_two_hundred_random_ones_and_a_rest() {
        assert_eq!(fixed().len(), 1281);
        let recorded = records(1481, 2);
        assert!(recorded.starts_with(&fixed().concat()));
        // The rest ends within the last entry of its registration.
        assert_eq!(recorded.len(), 1481 * JOB_BYTES + 54);
        assert_eq!(records(10, 1).len() / JOB_BYTES, 10);
        assert_ne!(records(1000, 1), records(1000, 2));
    }

    #[test]
    fn half_of_the_random_records_are_sound_and_of_every_kind() {
        let mut random = Random::new(1);
        let jobs: Vec<Job> = (0..2000).map(|_| random_record(&mut random)).collect();
        let lines: Vec<String> = jobs.iter().map(|job| line(job)).collect();
        let of_kind = |kind: u8| {
            let start = format!("{kind} ");
            lines.iter().filter(|line| line.starts_with(&start)).count()
        };
        assert!(
            (700..1100).contains(&of_kind(0)),
            "{} malformed",
            of_kind(0)
        );
        for kind in ALL {
            assert!(of_kind(kind) > 120, "{} of kind {kind}", of_kind(kind));
            assert!((0..1000).all(|_| is_sound(&random_sound(kind, &mut random))));
        }
    }
}

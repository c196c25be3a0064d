//! Random records.

use super::fitting;
use super::values::{NANS, RATES, SIGN, SPECIAL};
use crate::random::Random;
use crate::waves::boundaries::{above, COUNT};
use crate::waves::expect::MOST_LENT;
use crate::waves::record::{Record, PATTERNS};
use crate::waves::write::MOST_SAMPLES;

/// Any record; one in 2,048 has as many samples as matter.
pub fn record(random: &mut Random) -> Record {
    let mut record = short_record(random);
    match random.below(2048) {
        0 => record.count = MOST_SAMPLES as u32 - 1 + random.below(4),
        1..=16 => record.count = random.below(70_000),
        17..=128 => record.count = random.below(3_000),
        _ => return record,
    }
    record.lent = lent(record.count, random);
    record.place = random.below(record.count + 2);
    record
}

pub fn short_record(random: &mut Random) -> Record {
    let count = match random.below(16) {
        0 => 0,
        1..=4 => random.below(200),
        _ => random.below(30),
    };
    let mut record = Record {
        rate: rate(random),
        count,
        lent: lent(count, random),
        place: random.below(count + 2),
        own: pattern(random),
        patterns: [0; PATTERNS].map(|_| pattern(random)),
    };
    match random.below(24) {
        0 | 1 => record.own = random.pick(&NANS),
        2 => record.patterns[random.below(PATTERNS as u32) as usize] = random.pick(&NANS),
        _ => {}
    }
    record
}

fn rate(random: &mut Random) -> u32 {
    match random.below(16) {
        0 => random.pick(&RATES),
        1 => 383_996 + random.below(8),
        2 => random.bits(),
        _ => 1 + random.below(384_000),
    }
}

fn lent(count: u32, random: &mut Random) -> u32 {
    let fits = fitting(count);
    match random.below(16) {
        0 => fits - 1,
        1 => fits - 1 - random.below(fits),
        2 => (fits + random.below(92)).saturating_sub(46),
        3 | 4 => fits + 1,
        5..=7 => fits + random.below(64),
        8 => (fits + random.below(3_000)).min(MOST_LENT),
        _ => fits,
    }
}

/// No NaN: any bits, a special number, one a few floats away from a boundary, or one of any size.
fn pattern(random: &mut Random) -> u32 {
    let sign = random.below(2) * SIGN;
    match random.below(8) {
        0 => sign | (random.bits() & !SIGN).min(0x7f80_0000),
        1 => sign | random.pick(&SPECIAL),
        2..=4 => sign | (above(random.below(COUNT)) - 2 + random.below(4)),
        5 => sign | random.small(1.5, 24).to_bits(),
        _ => random.between(-1.05, 1.05).to_bits(),
    }
}

//! The records that are made whatever the seed is.

use super::values::{COUNTS, NANS, RATES, SIGN, SPECIAL};
use super::{fitting, of_patterns, plain};
use crate::waves::expect::{MOST_LENT, MOST_TRIED};
use crate::waves::record::{Record, PATTERNS};
use crate::waves::write::MOST_SAMPLES;

pub fn fixed() -> Vec<Record> {
    let mut records = example().to_vec();
    records.extend(RATES.map(|rate| Record { rate, ..plain(3) }));
    records.extend(COUNTS.map(plain));
    records.extend(rooms());
    records.extend(of_patterns(
        &SPECIAL.map(|bits| [bits, bits | SIGN]).concat(),
    ));
    records.extend(with_nan());
    records.extend(several_faults());
    records.extend(most_samples());
    records.extend(passed_over());
    records
}

/// The request's two.
fn example() -> [Record; 2] {
    let mut patterns = [0; PATTERNS];
    patterns[..2].copy_from_slice(&[0x3f80_0000, 0xbf80_0000]);
    let record = Record {
        lent: 52,
        place: 2,
        own: 0x3f00_0000,
        patterns,
        ..plain(3)
    };
    [record, Record { lent: 49, ..record }]
}

/// Lent bytes around what a stem takes, what its samples take, and none.
fn rooms() -> Vec<Record> {
    let mut records = Vec::new();
    for count in [0, 1, 2, 3, 12, 100] {
        let fits = fitting(count);
        let around = [
            fits - 44,
            fits - 43,
            fits - 2,
            fits - 1,
            fits,
            fits + 1,
            fits + 2,
            fits + 9,
        ];
        let lent = [0, 1, 4, 43, 44, 45].into_iter().chain(around);
        records.extend(lent.map(|lent| Record {
            lent,
            ..plain(count)
        }));
    }
    records
}

/// A NaN in each place of some, and one that is no sample: past the last, or in a pattern that comes
/// later.
fn with_nan() -> Vec<Record> {
    let mut records = Vec::new();
    for (i, nan) in NANS.into_iter().enumerate() {
        let place = i as u32;
        records.push(Record {
            place,
            own: nan,
            ..plain(8)
        });
        records.push(Record {
            place: place + 8,
            own: nan,
            ..plain(8)
        });
    }
    for place in 0..PATTERNS {
        let mut record = plain(place as u32 + 1);
        record.patterns[place] = NANS[place % NANS.len()];
        record.place = u32::MAX;
        records.push(record);
        record.count -= 1;
        records.push(record);
        (record.count, record.place) = (place as u32 + 1, place as u32);
        records.push(record);
    }
    records.extend([0, 1, 499, 500].map(|place| Record {
        place,
        own: NANS[2],
        ..plain(500)
    }));
    records
}

/// Every choice of a bad rate, a NaN and a missing byte.
fn several_faults() -> Vec<Record> {
    let mut records = Vec::new();
    for choice in 0..8 {
        for bad_rate in [0, 384_001] {
            let mut record = plain(5);
            if choice & 1 != 0 {
                record.rate = bad_rate;
            }
            if choice & 2 != 0 {
                record.own = NANS[0];
            }
            if choice & 4 != 0 {
                record.lent -= 1;
            }
            records.push(record);
        }
    }
    records
}

/// The most samples with the most bytes and with a byte too few, a NaN as the last of them, and one
/// sample more.
fn most_samples() -> [Record; 4] {
    let most = MOST_SAMPLES as u32;
    [
        Record {
            rate: 384_000,
            lent: MOST_LENT,
            ..plain(most)
        },
        Record {
            lent: fitting(most) - 1,
            ..plain(most)
        },
        Record {
            place: most - 1,
            own: NANS[3],
            ..plain(most)
        },
        plain(most + 1),
    ]
}

/// More than the program takes, and what the rest of the record says does not count then.
fn passed_over() -> [Record; 6] {
    [
        plain(MOST_TRIED + 1),
        Record {
            lent: 100,
            ..plain(MOST_TRIED + 1)
        },
        Record {
            lent: MOST_LENT + 1,
            ..plain(0)
        },
        Record {
            rate: 0,
            lent: MOST_LENT + 1,
            ..plain(3)
        },
        Record {
            count: u32::MAX,
            lent: 44,
            ..plain(3)
        },
        Record {
            count: 0,
            lent: u32::MAX,
            ..plain(3)
        },
    ]
}

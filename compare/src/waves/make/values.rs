//! The rates, counts and samples that fixed records are made of, and random ones now and then.

use crate::waves::record::PATTERNS;

/// Both ends of the rates that are answered, usual ones, ones whose bytes differ, and ones outside.
pub const RATES: [u32; 20] = [
    0,
    1,
    2,
    255,
    256,
    8_000,
    22_050,
    44_100,
    48_000,
    65_535,
    65_536,
    89_407,
    192_000,
    383_999,
    384_000,
    384_001,
    384_256,
    768_000,
    0x8000_bb80,
    u32::MAX,
];

/// Both zeros, subnormal numbers, the smallest normal one, the tie, the ends, numbers beyond them and
/// infinities; each also with the other sign.
pub const SPECIAL: [u32; 18] = [
    0,
    1,
    2,
    0x0000_ffff,
    0x007f_ffff,
    0x0080_0000,
    0x3700_0000,
    0x3780_0000,
    0x3eff_ffff,
    0x3f00_0000,
    0x3f00_0001,
    0x3f7f_fffe,
    0x3f7f_ffff,
    0x3f80_0000,
    0x3f80_0001,
    0x4000_0000,
    0x7f7f_ffff,
    0x7f80_0000,
];
pub const SIGN: u32 = 0x8000_0000;

/// Quiet and signalling, of both signs.
pub const NANS: [u32; 8] = [
    0x7f80_0001,
    0x7fbf_ffff,
    0x7fc0_0000,
    0x7fff_ffff,
    0xff80_0001,
    0xffbf_ffff,
    0xffc0_0000,
    0xffff_ffff,
];

/// Counts of samples in blocks that are written in full. The last ones have sizes whose bytes differ.
pub const COUNTS: [u32; 18] = [
    0, 1, 2, 3, 10, 11, 12, 13, 22, 110, 111, 127, 128, 500, 32_749, 32_750, 32_768, 70_000,
];

/// Eleven numbers, and one more, of which no two are the same.
pub const PLAIN: [u32; PATTERNS] = [
    0x3f00_0000,
    0xbe80_0000,
    0x3f7f_0000,
    0xbf80_0000,
    0x3c12_3456,
    0xbd98_7654,
    0x3e2a_aaab,
    0xbf55_5555,
    0x3f35_04f3,
    0xba83_126f,
    0x3f80_0000,
];
pub const PLAIN_OWN: u32 = 0xbf12_3456;

//! The states that a list starts from. Each record stands alone in its list, and its line would be
//! another from a start that differs in any bit of the word that is named; where that word is 0, from
//! one that differs by 2^-24 or more. The numbers were found by search.

use super::damage::{set_length, set_word};
use crate::calls::make::fields::settings;
use crate::calls::record::*;
use crate::lists::job::Job;

/// Kind, flags or shape, block length, and the words from the step count on: step count, frequency, master
/// frequency or gain, width or shape. Of two records that are a float apart, one shows the starts above
/// and the other those below.
#[rustfmt::skip]
const RECORDS: [(u8, u8, u16, [u32; 4]); 28] = [
    // master phase
    (SHAPE, 1, 66, [0, 0x3658_182d, 0x3e61_c191, 0x38fd_f07d]),
    // slave phase
    (SHAPE, 0, 13, [0, 0x3e09_8231, 0x3dfa_d499, 0x3f63_cbd2]),
    // master frequency
    (SHAPE, 1, 1135, [0, 0x36e0_b175, 0x3dc2_b44f, 0x3983_4820]),
    // slave frequency
    (SHAPE, 1, 331, [0, 0x375b_4f65, 0x3e63_7944, 0x396e_b5ae]),
    (SHAPE, 1, 331, [0, 0x375b_4f65, 0x3e63_7945, 0x396e_b5ae]),
    // width
    (SHAPE, 1, 26, [0, 0x3e6d_0daf, 0x3e1b_5026, 0x3f16_48c7]),
    (SHAPE, 1, 26, [0, 0x3e6d_0db0, 0x3e1b_5026, 0x3f16_48c7]),
    // phase
    (SAW, 0, 556, [0, 0x3e09_f1dc, 0, 0x3e95_81c1]),
    // frequency
    (SAW, 0, 7, [0, 0x3e78_51ec, 0, 0x3dde_0096]),
    (SAW, 0, 7, [0, 0x3e78_51ed, 0, 0x3dde_0096]),
    // width
    (SAW, 0, 3, [0, 0x3d34_aae3, 0, 0x3dc9_25ca]),
    (SAW, 0, 3, [0, 0x3d34_aae3, 0, 0x3dc9_25cb]),
    // master phase
    (SUPER_SQUARE, 0, 30, [0, 0x3e28_1fb8, 0, 0x3ed3_9812]),
    // slave phase
    (SUPER_SQUARE, 0, 39, [0, 0x3e0b_3448, 0, 0x3f41_ef4f]),
    // master frequency
    (SUPER_SQUARE, 0, 3010, [0, 0x3ddb_984d, 0, 0x3f7e_4aee]),
    // slave frequency
    (SUPER_SQUARE, 0, 64, [0, 0x3c23_33d6, 0, 0x3d80_6cc2]),
    (SUPER_SQUARE, 0, 64, [0, 0x3c23_33d7, 0, 0x3d80_6cc2]),
    // phase
    (NES, 0, 84, [64, 0x3cee_5363, 0, 0]),
    // frequency
    (NES, 0, 28, [32, 0x3e2a_aaaa, 0, 0]),
    (NES, 0, 28, [32, 0x3e2a_aaab, 0, 0]),
    // phase
    (STRING, 0, 7, [0, 0x3cff_3b64, 0x3f00_0000, 0]),
    // frequency
    (STRING, 0, 700, [0, 0x3ce8_b3dc, 0x3f00_0000, 0]),
    (STRING, 0, 700, [0, 0x3ce8_b3dd, 0x3f00_0000, 0]),
    // phase
    (CLASSIC, 7, 27, [0, 0x3d0e_7b75, 0, 0x3ed6_1292]),
    // high
    (CLASSIC, 3, 32, [0, 0x3cf0_8bfe, 0, 0x3dee_1c91]),
    // frequency
    (CLASSIC, 6, 468, [0, 0x3b91_3a9b, 0, 0x3f45_d784]),
    (CLASSIC, 6, 1557, [0, 0x3c9a_d12c, 0, 0x3da1_856f]),
    // width
    (CLASSIC, 4, 30, [0, 0x3c7d_59ff, 0, 0x3f41_121d]),
];

/// The settings of which the counts say nothing.
const OTHERS: f32 = 0.5;

pub fn lists(kind: u8) -> Vec<Vec<u8>> {
    let of_kind = RECORDS.iter().filter(|record| record.0 == kind);
    of_kind.map(|record| job(record).to_vec()).collect()
}

fn job(&(kind, flags, length, words): &(u8, u8, u16, [u32; 4])) -> Job {
    let mut job = [0; 64];
    job[0] = kind;
    job[1] = flags;
    set_length(&mut job, length);
    for field in settings(kind) {
        set_word(&mut job, field.at, OTHERS.to_bits());
    }
    for (i, word) in words.into_iter().enumerate() {
        set_word(&mut job, BITS_AT + 4 * i, word);
    }
    job
}

//! Records that ask for another call than `render`: the variable shape's master phase is set, the
//! classic is initialised. And those whose byte 1 is none of these and no usual one.

use super::fixed::plain;
use crate::calls::record::*;
use crate::random::Random;
use crate::starts::make::{phases, random_phase, random_rate, random_state, rates, states};

/// Values of byte 1 beside the classic's shapes and beside 128, which is no shape's.
const NO_SHAPES: [u8; 12] = [8, 9, 15, 16, 32, 64, 126, 127, 129, 130, 136, 255];
/// The variable shape's call goes by the lowest two bits of these.
const FLAGS: [u8; 8] = [4, 9, 18, 35, 64, 127, 129, 255];
/// Longer than any block that `render` answers; the last is too long to be tried.
const LENGTHS: [u16; 5] = [0, 1, 4097, 8192, 8193];
/// What a buffer holds: a NaN, an infinity, a number.
const BUFFERS: [u32; 3] = [0xff80_0001, 0x7f80_0000, 0x3f00_0000];

/// Whether a kind has another call.
pub fn has(kind: u8) -> bool {
    matches!(kind, SHAPE | CLASSIC)
}

pub fn records(kind: u8) -> Vec<Record> {
    let given = match kind {
        SHAPE => phases(),
        CLASSIC => rates(),
        // Byte 1 is not looked at.
        _ => return vec![with_byte(plain(kind), ANOTHER_CALL)],
    };
    let fit = given[0];
    let unfit = 0x7fc0_0000;
    let mut records: Vec<Record> = given
        .iter()
        .map(|&word| another(plain(kind), word))
        .collect();
    for state in states() {
        for word in [fit, unfit] {
            let mut record = another(plain(kind), word);
            record.set_state_words(&state[..state_word_count(kind)]);
            records.push(record);
        }
    }
    for word in [fit, unfit] {
        records.extend(LENGTHS.map(|length| {
            let mut record = another(plain(kind), word);
            record.set_length(length);
            record
        }));
        records.extend(BUFFERS.map(|bits| {
            let mut record = another(plain(kind), word);
            record.set_word(BUFFER_AT, bits);
            record
        }));
        records.push(with_noise(another(plain(kind), word)));
    }
    let bytes: &[u8] = if kind == SHAPE { &FLAGS } else { &NO_SHAPES };
    records.extend(bytes.iter().map(|&byte| with_byte(plain(kind), byte)));
    records
}

fn with_byte(mut record: Record, byte: u8) -> Record {
    record.set_flags(byte);
    record
}

fn another(record: Record, given: u32) -> Record {
    let mut record = with_byte(record, ANOTHER_CALL);
    record.set_word(GIVEN_AT, given);
    record
}

/// What the other call does not use has all bits set.
fn with_noise(mut record: Record) -> Record {
    record.0[BITS_AT..GIVEN_AT].fill(255);
    record.0[GIVEN_AT + 4..BUFFER_AT].fill(255);
    let past_state = state_at(state_word_count(record.kind()));
    record.0[past_state..].fill(255);
    record
}

/// Makes the record ask for the other call, with a phase or a rate of any sort; on its own state, or
/// on one of any bits.
pub fn choose(record: &mut Record, random: &mut Random) {
    let given = match record.kind() {
        SHAPE => random_phase(random),
        _ => random_rate(random),
    };
    *record = another(*record, given);
    if random.one_in(2) {
        let state = random_state(random);
        record.set_state_words(&state[..state_word_count(record.kind())]);
    }
}

//! A job record: 64 bytes, little-endian, which ask for one call. Its numbers stand as in a call
//! record, save that the NES triangle's depth is given by its step count, and that the registration
//! has no length of its own.

use crate::calls::record::*;
use crate::calls::Kinds;

pub const JOB_BYTES: usize = 64;

pub type Job = [u8; JOB_BYTES];

const MOST_FLAGS: u8 = 3;
const MOST_STEPS: u32 = 65_536;
const REGISTRATION_LENGTH: u32 = 7;

/// The call that a record asks for, its state still to be set; nothing where it is malformed.
pub fn call(job: &[u8]) -> Option<Record> {
    let kind = byte(job, 0);
    if job.len() != JOB_BYTES || !Kinds::all().has(kind) || !unused_are_zero(kind, job) {
        return None;
    }
    let mut call = Record::of_kind(kind);
    call.set_length(length(job));
    call.set_flags(match kind {
        CLASSIC => shape(byte(job, 1))?,
        _ => {
            let (sync, phase_output) = flags(byte(job, 1))?;
            u8::from(sync) | (u8::from(phase_output) << 1)
        }
    });
    for (of, from, to) in places() {
        if of == kind {
            call.set_word(to, word(job, from));
        }
    }
    match kind {
        NES => call.set_word(BITS_AT, depth(call.word(BITS_AT))?),
        STRING => call.set_word(REGISTRATION_COUNT_AT, REGISTRATION_LENGTH),
        _ => {}
    }
    Some(call)
}

/// Where each word of each kind stands: the kind, its place in a job record, its place in a call
/// record.
fn places() -> [(u8, usize, usize); 23] {
    [
        (SHAPE, 8, FREQUENCY_AT),
        (SHAPE, 12, MASTER_OR_GAIN_AT),
        (SHAPE, 16, WIDTH_OR_SHAPE_AT),
        (SHAPE, 20, WAVESHAPE_AT),
        (SHAPE, 24, PHASE_MODULATION_AT),
        (SAW, 8, FREQUENCY_AT),
        (SAW, 16, WIDTH_OR_SHAPE_AT),
        (SAW, 20, WAVESHAPE_AT),
        (SUPER_SQUARE, 8, FREQUENCY_AT),
        (SUPER_SQUARE, 16, WIDTH_OR_SHAPE_AT),
        (NES, 8, FREQUENCY_AT),
        (NES, 4, BITS_AT), // a step count, which becomes its depth
        (STRING, 8, FREQUENCY_AT),
        (STRING, 12, MASTER_OR_GAIN_AT),
        (STRING, 28, REGISTRATION_AT),
        (STRING, 32, REGISTRATION_AT + 4),
        (STRING, 36, REGISTRATION_AT + 8),
        (STRING, 40, REGISTRATION_AT + 12),
        (STRING, 44, REGISTRATION_AT + 16),
        (STRING, 48, REGISTRATION_AT + 20),
        (STRING, 52, REGISTRATION_AT + 24),
        (CLASSIC, 8, FREQUENCY_AT),
        (CLASSIC, 16, WIDTH_OR_SHAPE_AT),
    ]
}

/// Whether each byte that not every kind uses is 0, or is used by this kind.
fn unused_are_zero(kind: u8, job: &[u8]) -> bool {
    let not_for_all: [(_, &[u8]); 8] = [
        (1..2, &[SHAPE, CLASSIC]),
        (4..8, &[NES]),
        (12..16, &[SHAPE, STRING]),
        (16..20, &[SHAPE, SAW, SUPER_SQUARE, CLASSIC]),
        (20..24, &[SHAPE, SAW]),
        (24..28, &[SHAPE]),
        (28..56, &[STRING]),
        (56..64, &[]),
    ];
    not_for_all
        .into_iter()
        .all(|(bytes, kinds)| kinds.contains(&kind) || job[bytes].iter().all(|&byte| byte == 0))
}

/// Whether a call is in sync, and whether it gives out its phase; nothing for other bits.
fn flags(byte: u8) -> Option<(bool, bool)> {
    (byte <= MOST_FLAGS).then_some((byte & 1 != 0, byte & 2 != 0))
}

/// The classic's shape by its number; nothing for one that is none.
fn shape(byte: u8) -> Option<u8> {
    (byte <= MOST_SHAPE).then_some(byte)
}

/// The bits of a step count; nothing for a count that no record may have.
fn depth(steps: u32) -> Option<u32> {
    let fits = steps.count_ones() == 1 && (2..=MOST_STEPS).contains(&steps);
    fits.then(|| steps.trailing_zeros())
}

/// The block length that stands in any part, malformed or not.
pub fn length(part: &[u8]) -> u16 {
    u16::from_le_bytes([byte(part, 2), byte(part, 3)])
}

/// The words where a string has its registration, in any part.
pub fn registration(part: &[u8]) -> [u32; 7] {
    [28, 32, 36, 40, 44, 48, 52].map(|at| word(part, at))
}

fn word(part: &[u8], at: usize) -> u32 {
    u32::from_le_bytes([0, 1, 2, 3].map(|i| byte(part, at + i)))
}

/// Past the end of a part all is 0.
fn byte(part: &[u8], at: usize) -> u8 {
    part.get(at).copied().unwrap_or(0)
}

/// The record that asks for a call; its bits are ones that a call may have.
pub fn job(call: &Record) -> Job {
    let mut call = *call;
    match call.kind() {
        NES => call.set_word(BITS_AT, 1 << call.bits()),
        STRING => call.set_word(REGISTRATION_COUNT_AT, 0),
        _ => {}
    }
    let mut job = [0; JOB_BYTES];
    job.copy_from_slice(&call.0[..JOB_BYTES]);
    job
}

#[cfg(test)]
mod tests {
    use super::*;
    use crate::calls::make::fixed::plain;

    #[test]
    fn a_record_asks_for_the_call_that_it_was_made_from() {
        for kind in Kinds::all().list() {
            let made = plain(kind);
            let mut read = call(&job(&made)).unwrap();
            read.set_state_words(&made.state_words());
            assert_eq!(read.0, made.0, "kind {kind}");
        }
    }

    #[test]
    fn a_depth_is_that_of_one_bit_from_2_to_65536() {
        for bits in 1..=16 {
            assert_eq!(depth(1 << bits), Some(bits));
        }
        for steps in [0, 1, 3, 6, 65_535, 65_537, 131_072, 1 << 31, u32::MAX] {
            assert_eq!(depth(steps), None, "{steps} steps");
        }
    }

    #[test]
    fn the_flags_are_two_bits() {
        let both = [(false, false), (true, false), (false, true), (true, true)];
        assert_eq!([0, 1, 2, 3].map(flags), both.map(Some));
        assert!((4..=255).all(|byte| flags(byte).is_none()));
    }

    #[test]
    fn a_shape_is_from_0_to_7() {
        assert!((0..8).all(|byte| shape(byte) == Some(byte)));
        assert!((8..=255).all(|byte| shape(byte).is_none()));
    }

    #[test]
    fn a_part_that_is_no_whole_record_is_malformed_and_0_past_its_end() {
        let mut whole = job(&plain(SUPER_SQUARE));
        assert!(call(&whole).is_some());
        assert!((0..JOB_BYTES).all(|end| call(&whole[..end]).is_none()));
        assert!(call(&[whole, whole].concat()).is_none());
        whole[28..56].fill(255);
        assert_eq!(registration(&whole), [u32::MAX; 7]);
        assert_eq!(registration(&whole[..34])[..3], [u32::MAX, 0xffff, 0]);
        assert_eq!((length(&whole[..3]), length(&[])), (3, 0));
    }
}

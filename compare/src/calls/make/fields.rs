//! The fields of each kind's record, with the range that each keeps to: a table of its own, so that
//! the maker does not lean on the checks that it tries.

use crate::calls::record::*;
use crate::random::Random;

/// The smallest frequency that a call may ask for.
const LOWEST: f32 = 0.000001;
const UNIT: Holds = Holds::UpTo(0.0, 1.0);
const FREQUENCY: Holds = Holds::UpTo(LOWEST, 1.0);
const STATE_FREQUENCY: Holds = Holds::UpTo(0.0, 17.0 / 64.0);
const PHASE: Holds = Holds::Below(0.0, 1.0);
const WAVESHAPE: Holds = Holds::UpTo(-1.0, 2.0);
const GAIN: Holds = Holds::UpTo(-16.0, 16.0);

#[derive(Clone, Copy)]
pub enum Holds {
    /// A float from the first number to the second, both ends in it.
    UpTo(f32, f32),
    /// A float from the first number up to the second, that end not in it.
    Below(f32, f32),
    AnyBits,
    Flag,
    /// A whole number from the first to the second.
    Whole(u32, u32),
}

#[derive(Clone, Copy)]
pub struct Field {
    pub at: usize,
    pub holds: Holds,
}

/// What a call of this kind is asked for.
pub fn settings(kind: u8) -> Vec<Field> {
    let mut fields = vec![(FREQUENCY_AT, FREQUENCY)];
    match kind {
        SHAPE => fields.extend([
            (MASTER_OR_GAIN_AT, FREQUENCY),
            (WIDTH_OR_SHAPE_AT, UNIT),
            (WAVESHAPE_AT, UNIT),
            (PHASE_MODULATION_AT, Holds::UpTo(-8.0, 8.0)),
        ]),
        SAW => fields.extend([(WIDTH_OR_SHAPE_AT, UNIT), (WAVESHAPE_AT, UNIT)]),
        SUPER_SQUARE | CLASSIC => fields.push((WIDTH_OR_SHAPE_AT, UNIT)),
        NES => fields.push((BITS_AT, Holds::Whole(1, 16))),
        STRING => {
            fields.push((MASTER_OR_GAIN_AT, Holds::UpTo(0.0, 4.0)));
            fields.extend((0..7).map(|i| (REGISTRATION_AT + 4 * i, UNIT)));
        }
        _ => fields.clear(),
    }
    fields
        .into_iter()
        .map(|(at, holds)| Field { at, holds })
        .collect()
}

const SHAPE_STATE: [Holds; 10] = [
    PHASE, // master
    PHASE, // slave
    Holds::AnyBits,
    UNIT, // previous width
    Holds::Flag,
    STATE_FREQUENCY, // master
    STATE_FREQUENCY, // slave
    UNIT,
    WAVESHAPE,
    GAIN, // phase modulation
];

/// The phase is given as when the saw is high.
const SAW_STATE: [Holds; 7] = [
    Holds::UpTo(0.0, 81.0 / 64.0),
    Holds::AnyBits,
    UNIT, // previous width
    Holds::Flag,
    STATE_FREQUENCY,
    UNIT,
    WAVESHAPE,
];

const SUPER_SQUARE_STATE: [Holds; 6] = [
    PHASE, // master
    PHASE, // slave
    Holds::AnyBits,
    Holds::Flag,
    STATE_FREQUENCY, // master
    STATE_FREQUENCY, // slave
];

/// The step is given as for 16 bits.
const NES_STATE: [Holds; 5] = [
    PHASE,
    Holds::AnyBits,
    Holds::Whole(0, 65_535),
    Holds::Flag,
    STATE_FREQUENCY,
];

const STRING_STATE: [Holds; 8] = [
    Holds::Below(0.0, 8.0),
    Holds::AnyBits,
    Holds::Whole(0, 7),
    Holds::UpTo(0.0, 17.0 / 32.0),
    GAIN,
    GAIN,
    GAIN,
    GAIN,
];

const CLASSIC_STATE: [Holds; 9] = [
    PHASE,
    Holds::AnyBits, // next sample
    Holds::AnyBits, // low-pass
    Holds::AnyBits, // high-pass
    Holds::Flag,
    STATE_FREQUENCY,
    UNIT,
    Holds::AnyBits, // the impulse train's coefficient
    Holds::AnyBits, // and its gain
];

/// How many choices byte 1 has: the variable shape's two flags, the classic's shapes.
pub fn choices(kind: u8) -> u8 {
    match kind {
        SHAPE => 4,
        CLASSIC => MOST_SHAPE + 1,
        _ => 1,
    }
}

/// The state of this kind, in the source's order.
pub fn state(kind: u8) -> Vec<Field> {
    let holds: &[Holds] = match kind {
        SHAPE => &SHAPE_STATE,
        SAW => &SAW_STATE,
        SUPER_SQUARE => &SUPER_SQUARE_STATE,
        NES => &NES_STATE,
        STRING => &STRING_STATE,
        CLASSIC => &CLASSIC_STATE,
        _ => &[],
    };
    let place = |(i, &holds)| Field {
        at: state_at(i),
        holds,
    };
    holds.iter().enumerate().map(place).collect()
}

/// The state words of a kind that are interpolated frequencies, with the setting of each.
pub fn frequencies(kind: u8) -> &'static [(usize, usize)] {
    match kind {
        SHAPE => &[(5, MASTER_OR_GAIN_AT), (6, FREQUENCY_AT)],
        SAW | NES => &[(4, FREQUENCY_AT)],
        SUPER_SQUARE => &[(4, FREQUENCY_AT), (5, FREQUENCY_AT)],
        STRING => &[(3, FREQUENCY_AT)],
        CLASSIC => &[(5, FREQUENCY_AT)],
        _ => &[],
    }
}

impl Holds {
    /// The ends of the range with their neighbours on both sides, and what is no number at all.
    pub fn boundaries(self) -> Vec<u32> {
        const NAN: u32 = 0x7fc0_0000;
        const SIGNALLING: u32 = 0xff80_0001;
        match self {
            Holds::UpTo(low, high) | Holds::Below(low, high) => {
                let around = |x: f32| [x.next_down(), x, x.next_up()];
                let odd = [-0.0, f32::INFINITY, f32::NEG_INFINITY].map(f32::to_bits);
                let ends = [around(low), around(high)].concat();
                let mut words: Vec<u32> = ends.into_iter().map(f32::to_bits).collect();
                words.extend(odd);
                words.push(NAN);
                words
            }
            Holds::AnyBits => vec![
                NAN,
                SIGNALLING,
                f32::INFINITY.to_bits(),
                (-0.0f32).to_bits(),
            ],
            Holds::Flag => vec![0, 1, 2, u32::MAX],
            Holds::Whole(low, high) => {
                let around = |n: u32| [n.wrapping_sub(1), n, n + 1];
                let ends = [around(low), around(high)].concat();
                [ends.as_slice(), &[i32::MAX as u32, i32::MIN as u32, 33]].concat()
            }
        }
    }

    /// A value in the range: anywhere, at an end, close to one, or tiny.
    pub fn valid(self, random: &mut Random) -> u32 {
        let last = |x: f32| if x == 0.0 { 0.0 } else { x.next_down() };
        match self {
            Holds::UpTo(low, high) => float_in(low, high, random).to_bits(),
            Holds::Below(low, high) => float_in(low, last(high), random).to_bits(),
            Holds::AnyBits if random.one_in(8) => random.bits(),
            Holds::AnyBits => random.between(-2.0, 2.0).to_bits(),
            Holds::Flag => random.below(2),
            Holds::Whole(low, high) => low + random.below(high - low + 1),
        }
    }

    /// A value that is likely outside the range, or at its very end.
    pub fn damaged(self, random: &mut Random) -> u32 {
        match random.below(4) {
            0 => random.bits(),
            _ => random.pick(&self.boundaries()),
        }
    }
}

fn float_in(low: f32, high: f32, random: &mut Random) -> f32 {
    let width = high - low;
    let value = match random.below(8) {
        0 => low,
        1 => high,
        2 => low + random.small(width, 24),
        3 => high - random.small(width, 24),
        4 => random.small(high, 140),
        _ => random.between(low, high),
    };
    value.max(low).min(high)
}

//! Calls that stand right beside a turning point: a phase that comes to lie on it or one float
//! before it, numbers so small that a product loses digits, a width that hardly leaves 1.

use super::classic;
use super::fixed::plain;
use crate::calls::record::*;

/// A step that no addition here rounds.
const STEP: f32 = 0.125;

pub fn beside(kind: u8) -> Vec<Record> {
    match kind {
        SHAPE => [shapes(), widths(SHAPE, 7), overflows(SHAPE)].concat(),
        SAW => [saws(), widths(SAW, 5), overflows(SAW)].concat(),
        SUPER_SQUARE => [squares(), factors()].concat(),
        NES => [stairs(), tiny_stairs(), bits_outside()].concat(),
        STRING => [segments(), tiny_gains(), buffers()].concat(),
        CLASSIC => classic::records(),
        _ => Vec::new(),
    }
}

/// What the next step brings a phase to: half a cycle and a whole one, with the floats before them.
fn phases() -> [f32; 4] {
    [0.5f32.next_down(), 0.5, 1.0f32.next_down(), 1.0].map(|end| end - STEP)
}

fn state(record: &mut Record, values: &[(usize, f32)]) {
    for &(word, value) in values {
        record.set_float(state_at(word), value);
    }
}

/// The master wraps at the sample itself, or one float later; the slave meets its turning points.
fn squares() -> Vec<Record> {
    let mut records = Vec::new();
    for master in [0.25, 1.0f32.next_down() - STEP, 1.0 - STEP] {
        for slave in phases() {
            for high in [0, 1] {
                let mut record = plain(SUPER_SQUARE);
                record.set_length(2);
                record.set_float(FREQUENCY_AT, STEP);
                record.set_float(WIDTH_OR_SHAPE_AT, 0.5);
                state(
                    &mut record,
                    &[(0, master), (1, slave), (4, STEP), (5, STEP)],
                );
                record.set_word(state_at(3), high);
                records.push(record);
            }
        }
    }
    records
}

/// Shapes around 0.5, and one whose factor rounds otherwise if a product and a sum round once.
fn factors() -> Vec<Record> {
    let with_shape = |shape: f32| {
        let mut record = plain(SUPER_SQUARE);
        record.set_length(1);
        record.set_float(FREQUENCY_AT, 0.03125);
        record.set_float(WIDTH_OR_SHAPE_AT, shape);
        state(&mut record, &[(5, 0.0)]);
        record
    };
    let around = [0.5f32.next_down(), 0.5, 0.5f32.next_up()];
    let rounds_twice = f32::from_bits(0x3f01_0008);
    let others = [rounds_twice, 0.1, 0.3, 0.49, 0.55, 0.6, 0.7, 0.8, 0.9];
    [around.as_slice(), &others]
        .concat()
        .into_iter()
        .map(with_shape)
        .collect()
}

/// The same for the shape, with each of its flags.
fn shapes() -> Vec<Record> {
    let mut records = Vec::new();
    for master in [0.25, 1.0f32.next_down() - STEP, 1.0 - STEP] {
        for slave in phases() {
            for (waveshape, length) in [(0.0, 2), (1.0, 1)] {
                for high_and_flags in 0..8 {
                    let mut record = plain(SHAPE);
                    record.set_length(length);
                    record.set_flags(high_and_flags % 4);
                    record.set_float(FREQUENCY_AT, STEP);
                    record.set_float(MASTER_OR_GAIN_AT, STEP);
                    record.set_float(WIDTH_OR_SHAPE_AT, 0.5);
                    record.set_float(WAVESHAPE_AT, waveshape);
                    let phases = [(0, master), (1, slave)];
                    state(&mut record, &phases);
                    state(&mut record, &[(5, STEP), (6, STEP), (8, waveshape)]);
                    record.set_word(state_at(4), u32::from(high_and_flags / 4));
                    records.push(record);
                }
            }
        }
    }
    records
}

fn saws() -> Vec<Record> {
    let mut records = Vec::new();
    for phase in phases() {
        for high in [0, 1] {
            let mut record = plain(SAW);
            record.set_length(2);
            record.set_float(FREQUENCY_AT, STEP);
            record.set_float(WIDTH_OR_SHAPE_AT, 0.5);
            state(&mut record, &[(0, phase), (4, STEP)]);
            record.set_word(state_at(3), high);
            records.push(record);
        }
    }
    records
}

/// A width one float below 1 on its way down so slowly that it stays there.
fn widths(kind: u8, word: usize) -> Vec<Record> {
    const LOW: f32 = 0.000002;
    let mut record = plain(kind);
    record.set_length(4096);
    record.set_float(FREQUENCY_AT, LOW);
    record.set_float(WIDTH_OR_SHAPE_AT, 1.0);
    if kind == SHAPE {
        record.set_float(MASTER_OR_GAIN_AT, LOW);
    }
    state(&mut record, &[(word, 1.0f32.next_down())]);
    vec![record]
}

/// A rise so long before the sample that the fourth power of its time overflows, and meets a slope
/// that changes by 0: the sample is NaN, though nothing is divided by 0.
fn overflows(kind: u8) -> Vec<Record> {
    let (phase, previous, frequency, width, waveshape) = match kind {
        SHAPE => (1, 3, 6, 7, 8),
        _ => (0, 2, 4, 5, 6),
    };
    let low = f32::from_bits(0x3588_0001);
    let shape = if kind == SHAPE { 0.5 } else { 0.0 };
    let mut record = plain(kind);
    record.set_length(1);
    record.set_float(FREQUENCY_AT, low);
    record.set_float(WIDTH_OR_SHAPE_AT, 0.5);
    record.set_float(WAVESHAPE_AT, shape);
    let before = f32::from_bits(0x3eff_ffde);
    state(&mut record, &[(phase, 0.9), (previous, before)]);
    state(
        &mut record,
        &[(frequency, low), (width, 0.5), (waveshape, shape)],
    );
    vec![record]
}

/// Every depth, with the phase at half a cycle and at a whole one; fast ones fade to the smooth
/// triangle, slow ones do not.
fn stairs() -> Vec<Record> {
    let mut records = Vec::new();
    for bits in 1..=16 {
        for step in [STEP, 1.0 / 131_072.0] {
            for end in [0.5f32.next_down(), 0.5, 1.0f32.next_down(), 1.0] {
                let mut record = plain(NES);
                record.set_length(3);
                record.set_word(BITS_AT, bits);
                record.set_float(FREQUENCY_AT, step);
                let phase = end - step;
                state(&mut record, &[(0, phase), (4, step)]);
                record.set_word(state_at(2), (phase * (1u32 << bits) as f32) as u32);
                record.set_word(state_at(3), u32::from(end <= 0.5));
                records.push(record);
            }
        }
    }
    records
}

/// The bottom step, reached from another one long after its edge: a jump of 0 stays none.
fn tiny_stairs() -> Vec<Record> {
    let mut record = plain(NES);
    record.set_length(1);
    record.set_float(FREQUENCY_AT, 0.000001);
    state(&mut record, &[(0, 0.05), (4, 0.000001)]);
    record.set_word(state_at(2), 5);
    vec![record]
}

/// Bits that no call may have are read as 16 where the step is judged.
fn bits_outside() -> Vec<Record> {
    let mut records = Vec::new();
    for bits in [0, 17, 18, u32::MAX] {
        for step in [1, 2, 32_767, 32_768, 65_535, 65_536, 131_071, 131_072] {
            let mut record = plain(NES);
            record.set_word(BITS_AT, bits);
            record.set_word(state_at(2), step);
            records.push(record);
        }
    }
    records
}

/// Every segment's end met exactly and by one float less.
fn segments() -> Vec<Record> {
    let mut records = Vec::new();
    for end in 1..=8 {
        for end in [end as f32, (end as f32).next_down()] {
            let mut record = plain(STRING);
            record.set_length(2);
            record.set_float(FREQUENCY_AT, STEP / 8.0);
            let phase = end - STEP;
            state(&mut record, &[(0, phase), (3, STEP)]);
            record.set_word(state_at(2), phase as u32);
            records.push(record);
        }
    }
    records
}

/// Gains of a few units of 2^-149 on their way to 0, in a segment that the phase has long left: the
/// sample carried on is so small that each product's rounding shows, in a buffer of zeros.
fn tiny_gains() -> Vec<Record> {
    let units = |n: i32| (n as f32) * f32::from_bits(1);
    let mut gains = vec![[0; 4], [0, 0, 0, 2], [0, 0, 0, -2], [7, 5555, -3331, 1007]];
    for saw_8 in [0, 8, 10, 18, 20] {
        for saw_4 in [0, 4, 6, 12] {
            gains.extend([0, 2, 8].map(|saw_2| [saw_8, saw_4, saw_2, 0]));
        }
    }
    let mut records = Vec::new();
    for gains in gains {
        for (phase, segment) in [(5.3, 5), (6.9, 1), (7.7, 0)] {
            let mut record = plain(STRING);
            record.set_length(2);
            record.set_float(MASTER_OR_GAIN_AT, 0.0);
            record.set_float(FREQUENCY_AT, 0.001);
            record.set_float(BUFFER_AT, -0.0);
            state(&mut record, &[(0, phase), (3, 0.008)]);
            for (i, gain) in gains.into_iter().enumerate() {
                state(&mut record, &[(4 + i, units(gain))]);
            }
            record.set_word(state_at(2), segment);
            records.push(record);
        }
    }
    records
}

/// Buffers of any bits: the string adds to what it finds.
fn buffers() -> Vec<Record> {
    let held = [
        f32::NEG_INFINITY,
        f32::INFINITY,
        f32::NAN,
        -f32::MAX,
        f32::MAX,
        -0.0,
        f32::from_bits(1),
    ];
    let mut records = Vec::new();
    for buffer in held {
        for next_sample in [0.0, 0.75 * f32::MAX, f32::INFINITY, f32::from_bits(3)] {
            let mut record = plain(STRING);
            record.set_length(2);
            record.set_float(BUFFER_AT, buffer);
            state(&mut record, &[(1, next_sample)]);
            records.push(record);
        }
    }
    records
}

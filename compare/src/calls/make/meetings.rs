//! Random calls of the kinds that have sync, in whose first sample a reset and a turning point of the
//! slave meet.

use super::setups::dividing_by_zero;
use crate::calls::record::*;
use crate::random::Random;

const SYNC: u8 = 1;
/// A frequency above it is clipped.
const HIGHEST: f32 = 0.25;
const LOWEST: f32 = 0.000001;
const HALF_A_CYCLE: f32 = 0.5;
/// Shapes of the super square with the slave's factor, as the source comes to it.
const FACTORS: [(f32, f32); 4] = [(0.0, 0.51), (0.5, 1.0), (0.75, 2.0), (1.0, 5.0)];

/// Where the slave turns in a call, how far it steps, and how far the master does.
struct Steps {
    master: f32,
    slave: f32,
    width: f32,
}

/// The record itself, or in one of three of a kind that has sync one that keeps its other numbers.
pub fn sometimes(mut record: Record, random: &mut Random) -> Record {
    let is_kind = matches!(record.kind(), SHAPE | SUPER_SQUARE);
    if is_kind && record.asks() == Asks::Render && random.one_in(3) {
        let numbers: Drawn = random.pick(&[anywhere, anywhere, on_a_grid, tiny]);
        match record.kind() {
            SHAPE if random.one_in(8) => divide_by_zero(&mut record, random),
            SHAPE => {
                let steps = set_shape(&mut record, numbers(random), random);
                set_phases(&mut record, &steps, random);
            }
            _ => {
                let steps = set_square(&mut record, numbers(random)[0], random);
                set_phases(&mut record, &steps, random);
            }
        }
    }
    record
}

/// The time of the rise divides by 0, and the reset comes at the sample itself: at an earlier one the
/// slave would not have come to its width.
fn divide_by_zero(record: &mut Record, random: &mut Random) {
    dividing_by_zero(record, random);
    record.set_flags(record.0[1] | SYNC);
    record.set_float(MASTER_OR_GAIN_AT, HIGHEST);
    record.set_float(state_at(5), HIGHEST);
    record.set_float(state_at(0), 1.0 - HIGHEST);
}

/// Two steps and a width.
type Drawn = fn(&mut Random) -> [f32; 3];

fn anywhere(random: &mut Random) -> [f32; 3] {
    let mut step = || random.between(0.001, HIGHEST);
    let [one, other] = [step(), step()];
    [one, other, random.between(0.01, 0.99)]
}

fn on_a_grid(random: &mut Random) -> [f32; 3] {
    let mut part = |most: u32| (1 + random.below(most)) as f32 / 64.0;
    let [one, other] = [part(16), part(16)];
    [one, other, part(63)]
}

/// Steps beside which the phases round.
fn tiny(random: &mut Random) -> [f32; 3] {
    let mut step = || random.small(0.0001, 6).max(LOWEST);
    let [one, other] = [step(), step()];
    [one, other, random.between(0.01, 0.99)]
}

/// The steps stand still; the width before is this one, or anywhere, or moves by the slave's step.
fn set_shape(record: &mut Record, [master, other, width]: [f32; 3], random: &mut Random) -> Steps {
    let slave = if random.one_in(3) { master } else { other };
    let before = match random.below(4) {
        0 => (width - slave).max(0.0),
        1 => random.between(0.0, 1.0),
        2 => (width + random.between(-2.0, 2.0) * slave).clamp(0.0, 1.0),
        _ => width,
    };
    record.set_flags(record.0[1] | SYNC);
    record.set_float(MASTER_OR_GAIN_AT, master);
    record.set_float(FREQUENCY_AT, slave);
    record.set_float(WIDTH_OR_SHAPE_AT, width);
    for (word, value) in [(3, before), (5, master), (6, slave), (7, width)] {
        record.set_float(state_at(word), value);
    }
    record.set_word(state_at(4), random.below(2));
    Steps {
        master,
        slave,
        width,
    }
}

fn set_square(record: &mut Record, master: f32, random: &mut Random) -> Steps {
    let (shape, factor) = random.pick(&FACTORS);
    let slave = (master * factor).min(HIGHEST);
    record.set_float(FREQUENCY_AT, master);
    record.set_float(WIDTH_OR_SHAPE_AT, shape);
    record.set_float(state_at(4), master);
    record.set_float(state_at(5), slave);
    record.set_word(state_at(3), random.below(2));
    Steps {
        master,
        slave,
        width: HALF_A_CYCLE,
    }
}

/// The master wraps in the first sample, a part of it before its end; the slave passes a turning point
/// at the same time, some floats beside it, after it, or at any other.
fn set_phases(record: &mut Record, steps: &Steps, random: &mut Random) {
    let [quarter, part] = [random.below(4) as f32 / 4.0, random.between(0.0, 1.0)];
    let time = random.pick(&[0.0, quarter, part]);
    let [after, any] = [random.between(0.0, time), random.between(-0.25, 1.25)];
    let crossing = random.pick(&[time, after, any]);
    let turn = random.pick(&[steps.width, 1.0]);
    let before = |end: f32, step: f32, part: f32| end - step + part * step;
    let master = before(1.0, steps.master, time);
    let slave = nudged(before(turn, steps.slave, crossing), random);
    for (word, phase) in [master, slave].into_iter().enumerate() {
        record.set_float(state_at(word), phase.clamp(0.0, 1.0f32.next_down()));
    }
}

fn nudged(value: f32, random: &mut Random) -> f32 {
    let next = random.pick(&[f32::next_up, f32::next_down]);
    let floats = random.pick(&[0, 0, 0, 1, 2]);
    (0..floats).fold(value, |value, _| next(value))
}

//! States made by hand: valid ones of any kind, and those in which a rare thing happens.

use super::fields::{choices, frequencies, settings, state, Holds};
use crate::calls::original::classic_factors;
use crate::calls::record::*;
use crate::random::Random;

/// Frequencies at which an oscillator turns to another rule, each with its neighbours.
const TURNS: [f32; 6] = [0.0625, 0.125, 0.25, 0.5, 1.0, 0.000001];

/// Settings that a call may have.
pub fn choose_settings(record: &mut Record, random: &mut Random) {
    let kind = record.kind();
    for field in settings(kind) {
        record.set_word(field.at, field.holds.valid(random));
    }
    record.set_float(FREQUENCY_AT, frequency(random));
    match kind {
        SHAPE => {
            record.set_flags(random.below(4) as u8);
            record.set_float(MASTER_OR_GAIN_AT, frequency(random));
        }
        STRING => {
            // Above 0.5 nothing is heard, so most are brought below it.
            if !random.one_in(8) {
                record.set_float(FREQUENCY_AT, record.float(FREQUENCY_AT).min(0.5));
            }
            record.set_word(REGISTRATION_COUNT_AT, 7);
        }
        CLASSIC => record.set_flags(random.below(u32::from(choices(kind))) as u8),
        _ => {}
    }
}

fn frequency(random: &mut Random) -> f32 {
    let turn = random.pick(&TURNS);
    let frequency = match random.below(8) {
        0 => random.pick(&[turn.next_down(), turn, turn.next_up()]),
        1 => random.between(0.0, 1.0),
        2 | 3 => random.between(0.0, 0.3),
        _ => random.small(0.25, 18),
    };
    frequency.clamp(0.000001, 1.0)
}

/// A state that is valid for the record's settings.
pub fn choose_state(record: &mut Record, random: &mut Random) {
    let kind = record.kind();
    for field in state(kind) {
        record.set_word(field.at, field.holds.valid(random));
    }
    match kind {
        SAW if record.float(state_at(0)) >= 1.0 => record.set_word(state_at(3), 1),
        NES => {
            let bits = record.bits().clamp(1, 16);
            let by_phase = (record.float(state_at(0)) * (1u32 << bits) as f32) as u32;
            let step = if random.one_in(4) {
                random.below(1 << bits)
            } else {
                by_phase
            };
            record.set_word(state_at(2), step);
        }
        STRING if !random.one_in(4) => {
            record.set_word(state_at(2), record.float(state_at(0)) as u32);
        }
        // Factors of any bits soon leave nothing to be heard, so most are those of a sample rate.
        CLASSIC if !random.one_in(4) => {
            let rate = random.between(8_000.0, 384_000.0);
            for (i, word) in classic_factors(rate).into_iter().enumerate() {
                record.set_word(state_at(7 + i), word);
            }
        }
        _ => {}
    }
}

/// A long way down to a small frequency, or a width that hardly leaves 0 or 1: rounding may carry a
/// step out of its room.
pub fn drifting(record: &mut Record, random: &mut Random) {
    let kind = record.kind();
    let end = if kind == STRING {
        17.0 / 32.0
    } else {
        17.0 / 64.0
    };
    for &(word, setting) in frequencies(kind) {
        record.set_float(state_at(word), random.between(0.1, end));
        let target = if random.one_in(2) {
            0.0
        } else {
            random.small(0.0001, 8)
        };
        record.set_float(setting, target.max(0.000001));
    }
    record.set_length(random.pick(&[4096, 4095, 3000, 2048]));
    let width = match kind {
        SHAPE => state_at(7),
        SAW => state_at(5),
        CLASSIC => state_at(6),
        _ => return,
    };
    if random.one_in(2) {
        record.set_float(width, random.pick(&[0.0, 1.0, 1.0f32.next_down()]));
        record.set_float(WIDTH_OR_SHAPE_AT, random.pick(&[0.0, 1.0]));
    }
}

/// Phases close to the end of a cycle under large steps; for the variable shape with a narrow
/// pulse, so that rise, fall and rise meet in one sample.
pub fn crossing(record: &mut Record, random: &mut Random) {
    let kind = record.kind();
    let end = if kind == STRING { 8.0 } else { 1.0 };
    for field in state(kind) {
        if matches!(field.holds, Holds::Below(..)) || (kind == SAW && field.at == state_at(0)) {
            let phase = (end - random.small(0.25, 26)).min(f32::next_down(end));
            record.set_float(field.at, phase);
        }
    }
    for &(word, _) in frequencies(kind) {
        record.set_float(state_at(word), random.between(0.05, 17.0 / 64.0));
    }
    match kind {
        SHAPE => {
            record.set_float(state_at(3), random.small(0.25, 24));
            record.set_word(state_at(4), 0);
            record.set_float(state_at(7), random.small(0.25, 24));
            record.set_float(FREQUENCY_AT, random.small(0.25, 18).max(0.000001));
            record.set_float(WIDTH_OR_SHAPE_AT, random.small(0.25, 24));
        }
        SAW | SUPER_SQUARE => record.set_word(state_at(3), random.below(2)),
        CLASSIC => record.set_word(state_at(4), random.below(2)),
        NES => record.set_word(state_at(2), (1 << record.bits().clamp(1, 16)) - 1),
        STRING => record.set_word(state_at(2), 7),
        _ => {}
    }
}

/// A width that moves by exactly the frequency, so that the time of a rise divides by 0. All
/// numbers are multiples of 1/1024, so that no step rounds.
pub fn dividing_by_zero(record: &mut Record, random: &mut Random) {
    let (phase, previous, high, frequency, width) = match record.kind() {
        SHAPE => (1, 3, 4, 6, 7),
        SAW => (0, 2, 3, 4, 5),
        _ => return,
    };
    let part = |n: u32| n as f32 / 1024.0;
    let step = 1 + random.below(255);
    let to = 2 * step + random.below(1025 - 4 * step);
    record.set_float(FREQUENCY_AT, part(step));
    record.set_float(WIDTH_OR_SHAPE_AT, part(to));
    record.set_float(state_at(frequency), part(step));
    record.set_float(state_at(width), part(to));
    record.set_float(state_at(previous), part(to - step));
    record.set_float(
        state_at(phase),
        part((to - step + random.below(3)).min(1023)),
    );
    record.set_word(state_at(high), 0);
}

/// A width that passes the phase, up or down, while this hardly moves.
pub fn overtaking(record: &mut Record, random: &mut Random) {
    let phase = random.between(0.2, 0.8);
    let [below, above] = [0.0, phase].map(|low| random.between(low, low + 0.2));
    let (from, to) = match random.one_in(2) {
        true => (below, above),
        false => (above, below),
    };
    let frequency = random.small(0.01, 8).max(0.000001);
    record.set_float(FREQUENCY_AT, frequency);
    record.set_float(WIDTH_OR_SHAPE_AT, to);
    record.set_float(state_at(0), phase);
    record.set_word(state_at(4), random.below(2));
    record.set_float(state_at(5), frequency);
    record.set_float(state_at(6), from);
    record.set_length(1 + random.below(8) as u16);
}

/// Phases, widths and steady steps in parts of 1/64, so that a phase meets a crossing exactly.
pub fn on_a_grid(record: &mut Record, random: &mut Random) {
    let kind = record.kind();
    let part = |n: u32| n as f32 / 64.0;
    for field in state(kind) {
        match field.holds {
            Holds::Below(_, end) => record.set_float(field.at, part(random.below(64)) * end),
            Holds::UpTo(low, high) if (low, high) == (0.0, 1.0) => {
                record.set_float(field.at, part(1 + random.below(63)));
            }
            _ => {}
        }
    }
    let mut step = part(1 + random.below(16));
    for &(word, setting) in frequencies(kind) {
        // Both steps of the super square come from one setting.
        if kind != SUPER_SQUARE {
            step = part(1 + random.below(16));
        }
        record.set_float(state_at(word), step);
        record.set_float(setting, if kind == STRING { step / 8.0 } else { step });
    }
    match kind {
        SHAPE => record.set_float(WIDTH_OR_SHAPE_AT, record.float(state_at(7))),
        SAW => {
            record.set_float(state_at(0), part(random.below(64)));
            record.set_float(WIDTH_OR_SHAPE_AT, record.float(state_at(5)));
        }
        SUPER_SQUARE => record.set_float(WIDTH_OR_SHAPE_AT, 0.5),
        CLASSIC => record.set_float(WIDTH_OR_SHAPE_AT, record.float(state_at(6))),
        _ => {}
    }
}

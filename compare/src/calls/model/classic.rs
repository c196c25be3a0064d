//! The classic oscillator: eight shapes from one phase, without frequency modulation.

use super::counts::{Counts, Crossing};
use super::pair::Pair;
use super::ramp::{Ramp, Room};
use super::range::{frequency_parameter, frequency_state, phase, unit, FREQUENCY_END};
use super::render::Oscillator;
use super::targets::clipped;
use super::words::{flag, float};
use crate::calls::record::{Record, FREQUENCY_AT, WIDTH_OR_SHAPE_AT};

/// The shapes by their numbers.
const IMPULSE_TRAIN: u8 = 0;
const SAW: u8 = 1;
const TRIANGLE: u8 = 2;
const SLOPE: u8 = 3;
const SQUARE_BRIGHT: u8 = 5;
const SQUARE_DARK: u8 = 6;
const SQUARE_TRIANGLE: u8 = 7;

#[derive(Clone, Copy)]
pub struct Classic {
    phase: f32,
    next_sample: f32,
    lp_state: f32,
    hp_state: f32,
    high: bool,
    frequency: f32,
    pw: f32,
    impulse_train_lp_coeff: f32,
    impulse_train_gain: f32,
}

/// Whether a shape has the call's width; the others have half a cycle.
fn has_width(shape: u8) -> bool {
    shape != TRIANGLE && shape != SQUARE_TRIANGLE
}

/// The width that a frequency leaves room for.
fn clamped_width(width: f32, frequency: f32) -> f32 {
    let (low, high) = (frequency * 2.0, 1.0 - 2.0 * frequency);
    if width < low {
        low
    } else if width > high {
        high
    } else {
        width
    }
}

/// A number from 0 to 1 as one from -1 to 1.
fn bipolar(x: f32) -> f32 {
    2.0 * x - 1.0
}

impl Classic {
    /// Takes a whole cycle off; the time since its end, in samples.
    fn wrap(&mut self, frequency: f32) -> Option<f32> {
        if self.phase < 1.0 {
            return None;
        }
        self.phase -= 1.0;
        Some(self.phase / frequency)
    }

    /// Sets `high`, and counts it where that is a change.
    fn turn(&mut self, high: bool, counts: &mut Counts) {
        if high && !self.high {
            counts.rises += 1;
        }
        if self.high && !high {
            counts.falls += 1;
        }
        self.high = high;
    }

    /// Impulse train and saw: the phase itself, which falls at the wrap.
    fn ramp(&mut self, frequency: f32, pair: &mut Pair) -> Counts {
        let wrapped = self.wrap(frequency);
        if let Some(t) = wrapped {
            pair.jump(-1.0, t);
        }
        pair.next += self.phase;
        Counts {
            cycles: u32::from(wrapped.is_some()),
            ..Counts::default()
        }
    }

    /// Triangle and slope: up before the width, down after it, by these slopes.
    fn slopes(&mut self, [frequency, pw]: [f32; 2], up: f32, down: f32, pair: &mut Pair) -> Counts {
        let corner = (up + down) * frequency;
        let before = self.phase < pw;
        if self.high != before {
            pair.bend(-corner, (self.phase - pw) / frequency);
        }
        let mut counts = Counts::default();
        self.turn(before, &mut counts);
        if let Some(t) = self.wrap(frequency) {
            pair.bend(corner, t);
            self.turn(true, &mut counts);
            counts.cycles = 1;
        }
        pair.next += if self.high {
            self.phase * up
        } else {
            1.0 - (self.phase - pw) * down
        };
        counts
    }

    /// The four squares: low before the width, high after it.
    fn square(&mut self, [frequency, pw]: [f32; 2], pair: &mut Pair) -> Counts {
        let after = self.phase >= pw;
        if self.high != after {
            pair.jump(1.0, (self.phase - pw) / frequency);
        }
        let mut counts = Counts::default();
        self.turn(after, &mut counts);
        if let Some(t) = self.wrap(frequency) {
            pair.jump(-1.0, t);
            self.turn(false, &mut counts);
            counts.cycles = 1;
        }
        pair.next += if self.phase < pw { 0.0 } else { 1.0 };
        counts
    }

    /// A sample goes through the low-pass; what is left in it.
    fn smooth(&mut self, sample: f32, coefficient: f32) -> f32 {
        self.lp_state += coefficient * (sample - self.lp_state);
        self.lp_state
    }

    /// The difference of two samples goes through the low-pass, and is made as loud as it was.
    fn impulse(&mut self, this: f32) -> f32 {
        let difference = self.hp_state - this;
        let smoothed = self.smooth(difference, self.impulse_train_lp_coeff);
        self.hp_state = this;
        self.impulse_train_gain * smoothed
    }

    /// What is heard of a sample in which steps are spread.
    fn heard(&mut self, shape: u8, frequency: f32, this: f32) -> f32 {
        match shape {
            IMPULSE_TRAIN => self.impulse(this),
            SQUARE_TRIANGLE => self.smooth(128.0 * (this - 0.5), frequency * 0.0625),
            SQUARE_DARK => self.smooth(4.0 * (this - 0.5), frequency * 2.0),
            SQUARE_BRIGHT => {
                let square = bipolar(this);
                (square - self.smooth(square, frequency * 2.0)) * 0.5
            }
            _ => bipolar(this),
        }
    }
}

impl Oscillator<2> for Classic {
    fn from_words(words: &[u32]) -> Option<Self> {
        Some(Classic {
            phase: float(words[0]),
            next_sample: float(words[1]),
            lp_state: float(words[2]),
            hp_state: float(words[3]),
            high: flag(words[4])?,
            frequency: float(words[5]),
            pw: float(words[6]),
            impulse_train_lp_coeff: float(words[7]),
            impulse_train_gain: float(words[8]),
        })
    }

    fn to_words(self) -> Vec<u32> {
        vec![
            self.phase.to_bits(),
            self.next_sample.to_bits(),
            self.lp_state.to_bits(),
            self.hp_state.to_bits(),
            u32::from(self.high),
            self.frequency.to_bits(),
            self.pw.to_bits(),
            self.impulse_train_lp_coeff.to_bits(),
            self.impulse_train_gain.to_bits(),
        ]
    }

    fn in_range(&self, _call: &Record) -> bool {
        phase(self.phase, 1.0) && frequency_state(self.frequency) && unit(self.pw)
    }

    /// The width counts even where the shape has none.
    fn settings_in_range(call: &Record) -> bool {
        frequency_parameter(call.float(FREQUENCY_AT)) && unit(call.float(WIDTH_OR_SHAPE_AT))
    }

    fn ramps(&self, call: &Record) -> [Ramp; 2] {
        let frequency = clipped(call.float(FREQUENCY_AT));
        let width = clamped_width(call.float(WIDTH_OR_SHAPE_AT), frequency);
        let width_room = Room {
            stepped: has_width(call.shape()),
            ..Room::width()
        };
        let to = |value, target, room| Ramp::new(value, target, call.length(), room);
        [
            to(self.frequency, frequency, Room::frequency(FREQUENCY_END)),
            to(self.pw, width, width_room),
        ]
    }

    fn store(&mut self, [frequency, pw]: [f32; 2]) {
        self.frequency = frequency;
        self.pw = pw;
    }

    fn sample(
        &mut self,
        call: &Record,
        [frequency, pw]: [f32; 2],
        _old: f32,
        _crossings: &mut Vec<Crossing>,
    ) -> (f32, Counts) {
        let shape = call.shape();
        let pw = if has_width(shape) { pw } else { 0.5 };
        let mut pair = Pair::due(self.next_sample);
        self.phase += frequency;
        let counts = match shape {
            IMPULSE_TRAIN | SAW => self.ramp(frequency, &mut pair),
            TRIANGLE => self.slopes([frequency, pw], 2.0, 2.0, &mut pair),
            SLOPE => self.slopes([frequency, pw], 1.0 / pw, 1.0 / (1.0 - pw), &mut pair),
            _ => self.square([frequency, pw], &mut pair),
        };
        self.next_sample = pair.next;
        (self.heard(shape, frequency, pair.this), counts)
    }
}

//! The variable saw: a saw with a notch at one end of its shape, a triangle at the other.

use super::counts::{Counts, Crossing};
use super::pair::Pair;
use super::ramp::{Ramp, Room};
use super::range::*;
use super::render::Oscillator;
use super::targets::{clipped, fitting_width};
use super::words::{flag, float};
use crate::calls::record::{Record, FREQUENCY_AT, WAVESHAPE_AT, WIDTH_OR_SHAPE_AT};

const NOTCH_DEPTH: f32 = 0.2;

#[derive(Clone, Copy)]
pub struct VariableSaw {
    phase: f32,
    next_sample: f32,
    previous_pw: f32,
    high: bool,
    frequency: f32,
    pw: f32,
    waveshape: f32,
}

/// The waveform of one sample.
struct Wave {
    frequency: f32,
    pw: f32,
    slope_up: f32,
    slope_down: f32,
    triangle: f32,
    notch: f32,
}

impl Wave {
    fn new([frequency, pw, waveshape]: [f32; 3]) -> Self {
        Wave {
            frequency,
            pw,
            slope_up: 1.0 / pw,
            slope_down: 1.0 / (1.0 - pw),
            triangle: waveshape,
            notch: 1.0 - waveshape,
        }
    }

    /// How much the slope changes at each corner of the triangle.
    fn corner(&self) -> f32 {
        (self.slope_up + self.slope_down) * self.frequency * self.triangle
    }

    fn naive(&self, phase: f32) -> f32 {
        let (saw, triangle) = if phase < self.pw {
            (phase, phase * self.slope_up)
        } else {
            (1.0 + NOTCH_DEPTH, 1.0 - (phase - self.pw) * self.slope_down)
        };
        saw * self.notch + triangle * self.triangle
    }
}

impl VariableSaw {
    fn rise(&mut self, wave: &Wave, pair: &mut Pair) {
        let moved = self.previous_pw - wave.pw + wave.frequency;
        let t = (self.phase - wave.pw) / moved;
        pair.jump((NOTCH_DEPTH + 1.0 - wave.pw) * wave.notch, t);
        pair.bend(-wave.corner(), t);
        self.high = true;
    }

    fn wrap(&mut self, wave: &Wave, pair: &mut Pair) {
        self.phase -= 1.0;
        let t = self.phase / wave.frequency;
        pair.jump(-((NOTCH_DEPTH + 1.0) * wave.notch), t);
        pair.bend(wave.corner(), t);
        self.high = false;
    }
}

impl Oscillator<3> for VariableSaw {
    fn from_words(words: &[u32]) -> Option<Self> {
        Some(VariableSaw {
            phase: float(words[0]),
            next_sample: float(words[1]),
            previous_pw: float(words[2]),
            high: flag(words[3])?,
            frequency: float(words[4]),
            pw: float(words[5]),
            waveshape: float(words[6]),
        })
    }

    fn to_words(self) -> Vec<u32> {
        vec![
            self.phase.to_bits(),
            self.next_sample.to_bits(),
            self.previous_pw.to_bits(),
            u32::from(self.high),
            self.frequency.to_bits(),
            self.pw.to_bits(),
            self.waveshape.to_bits(),
        ]
    }

    fn in_range(&self, _call: &Record) -> bool {
        let phase_fits = match self.high {
            true => within(self.phase, (0.0, HIGH_SAW_PHASE_END)),
            false => phase(self.phase, 1.0),
        };
        phase_fits
            && unit(self.previous_pw)
            && frequency_state(self.frequency)
            && unit(self.pw)
            && within(self.waveshape, WAVESHAPE)
    }

    fn settings_in_range(call: &Record) -> bool {
        frequency_parameter(call.float(FREQUENCY_AT))
            && unit(call.float(WIDTH_OR_SHAPE_AT))
            && unit(call.float(WAVESHAPE_AT))
    }

    fn ramps(&self, call: &Record) -> [Ramp; 3] {
        let frequency = clipped(call.float(FREQUENCY_AT));
        let width = fitting_width(call.float(WIDTH_OR_SHAPE_AT), frequency);
        let to = |value, target, room| Ramp::new(value, target, call.length(), room);
        [
            to(self.frequency, frequency, Room::frequency(FREQUENCY_END)),
            to(self.pw, width, Room::width()),
            to(
                self.waveshape,
                call.float(WAVESHAPE_AT),
                Room::within(WAVESHAPE),
            ),
        ]
    }

    fn store(&mut self, [frequency, pw, waveshape]: [f32; 3]) {
        self.frequency = frequency;
        self.pw = pw;
        self.waveshape = waveshape;
    }

    fn sample(
        &mut self,
        _call: &Record,
        steps: [f32; 3],
        _old: f32,
        _crossings: &mut Vec<Crossing>,
    ) -> (f32, Counts) {
        let wave = Wave::new(steps);
        let mut counts = Counts::default();
        let mut pair = Pair::due(self.next_sample);
        self.phase += wave.frequency;
        // A rise and a wrap exclude each other in one sample: the phase may stay above 1.
        if !self.high && self.phase >= wave.pw {
            self.rise(&wave, &mut pair);
            counts.rises = 1;
        } else if self.phase >= 1.0 {
            // The width is below 1, so a low phase of 1 or more has risen: this is a fall.
            self.wrap(&wave, &mut pair);
            counts.cycles = 1;
            counts.falls = 1;
        }
        pair.next += wave.naive(self.phase);
        self.next_sample = pair.next;
        self.previous_pw = wave.pw;
        ((2.0 * pair.this - 1.0) / (1.0 + NOTCH_DEPTH), counts)
    }
}

//! The variable shape: triangle, saw and square in one, its phase reset by a master's on demand.

use super::counts::{Counts, Crossing, Edge};
use super::pair::Pair;
use super::ramp::{Ramp, Room};
use super::range::*;
use super::render::Oscillator;
use super::targets::{clipped, fitting_width};
use super::words::{flag, float};
use crate::calls::record::*;

#[derive(Clone, Copy)]
pub struct VariableShape {
    master_phase: f32,
    slave_phase: f32,
    next_sample: f32,
    previous_pw: f32,
    high: bool,
    master_frequency: f32,
    slave_frequency: f32,
    pw: f32,
    waveshape: f32,
    phase_modulation: f32,
}

/// A wrap of the master phase within a sample.
#[derive(Clone, Copy)]
struct Reset {
    time: f32,
    /// Whether the slave crosses before it.
    crosses: bool,
}

/// The waveform of one sample.
struct Wave {
    frequency: f32,
    pw: f32,
    slope_up: f32,
    slope_down: f32,
    triangle: f32,
    square: f32,
}

impl Wave {
    fn new(frequency: f32, pw: f32, waveshape: f32) -> Self {
        Wave {
            frequency,
            pw,
            slope_up: 1.0 / pw,
            slope_down: 1.0 / (1.0 - pw),
            triangle: not_negative(1.0 - waveshape * 2.0),
            square: not_negative(waveshape - 0.5) * 2.0,
        }
    }

    /// How much the slope changes at each corner of the triangle.
    fn corner(&self) -> f32 {
        (self.slope_up + self.slope_down) * self.frequency * self.triangle
    }

    fn naive(&self, phase: f32) -> f32 {
        let (square, triangle) = if phase < self.pw {
            (0.0, phase * self.slope_up)
        } else {
            (1.0, 1.0 - (phase - self.pw) * self.slope_down)
        };
        let saw_and_square = phase + (square - phase) * self.square;
        saw_and_square + (triangle - saw_and_square) * self.triangle
    }
}

fn not_negative(x: f32) -> f32 {
    if x > 0.0 {
        x
    } else {
        0.0
    }
}

impl VariableShape {
    /// Moves the master; where it wraps, takes the slave's value at that moment out again.
    fn advance_master(&mut self, master: f32, wave: &Wave, pair: &mut Pair) -> Option<Reset> {
        self.master_phase += master;
        if self.master_phase < 1.0 {
            return None;
        }
        self.master_phase -= 1.0;
        let time = self.master_phase / master;
        let mut at_reset = self.slave_phase + (1.0 - time) * wave.frequency;
        let wraps = at_reset >= 1.0;
        if wraps {
            at_reset -= 1.0;
        }
        pair.jump(-wave.naive(at_reset), time);
        Some(Reset {
            time,
            crosses: wraps || (!self.high && at_reset >= wave.pw),
        })
    }

    /// Rises at the pulse width and falls at a whole cycle, as long as there is one to come. Each is
    /// told by its edge and its t.
    fn cross(&mut self, wave: &Wave, pair: &mut Pair, mut tell: impl FnMut(Edge, f32)) {
        loop {
            if !self.high && self.slave_phase >= wave.pw {
                let moved = self.previous_pw - wave.pw + wave.frequency;
                let t = (self.slave_phase - wave.pw) / moved;
                pair.jump(wave.square, t);
                pair.bend(-wave.corner(), t);
                self.high = true;
                tell(Edge::Rise, t);
            } else if self.high && self.slave_phase >= 1.0 {
                self.slave_phase -= 1.0;
                let t = self.slave_phase / wave.frequency;
                pair.jump(-(1.0 - wave.triangle), t);
                pair.bend(wave.corner(), t);
                self.high = false;
                tell(Edge::Fall, t);
            } else {
                return;
            }
        }
    }

    /// The sample itself, or the phase with the sample on it.
    fn output(&self, call: &Record, pw: f32, modulation: f32, this: f32) -> f32 {
        if !call.phase_output() {
            return 2.0 * this - 1.0;
        }
        let phase = self.master_phase;
        if !call.sync() {
            return phase + modulation * this;
        }
        let window = 4.0 * (1.0 - phase) * phase;
        let windowed = this * (window * (2.0 - window));
        let square = phase * phase;
        let bent = phase + (square * square - phase) * (pw - 0.5).abs() * 2.0;
        bent + modulation * windowed
    }
}

impl Oscillator<5> for VariableShape {
    fn from_words(words: &[u32]) -> Option<Self> {
        Some(VariableShape {
            master_phase: float(words[0]),
            slave_phase: float(words[1]),
            next_sample: float(words[2]),
            previous_pw: float(words[3]),
            high: flag(words[4])?,
            master_frequency: float(words[5]),
            slave_frequency: float(words[6]),
            pw: float(words[7]),
            waveshape: float(words[8]),
            phase_modulation: float(words[9]),
        })
    }

    fn to_words(self) -> Vec<u32> {
        vec![
            self.master_phase.to_bits(),
            self.slave_phase.to_bits(),
            self.next_sample.to_bits(),
            self.previous_pw.to_bits(),
            u32::from(self.high),
            self.master_frequency.to_bits(),
            self.slave_frequency.to_bits(),
            self.pw.to_bits(),
            self.waveshape.to_bits(),
            self.phase_modulation.to_bits(),
        ]
    }

    fn in_range(&self, _call: &Record) -> bool {
        phase(self.master_phase, 1.0)
            && phase(self.slave_phase, 1.0)
            && unit(self.previous_pw)
            && frequency_state(self.master_frequency)
            && frequency_state(self.slave_frequency)
            && unit(self.pw)
            && within(self.waveshape, WAVESHAPE)
            && within(self.phase_modulation, MODULATION)
    }

    /// The master's frequency and the phase modulation count even where they are not heard.
    fn settings_in_range(call: &Record) -> bool {
        frequency_parameter(call.float(FREQUENCY_AT))
            && frequency_parameter(call.float(MASTER_OR_GAIN_AT))
            && unit(call.float(WIDTH_OR_SHAPE_AT))
            && unit(call.float(WAVESHAPE_AT))
            && within(call.float(PHASE_MODULATION_AT), (-8.0, 8.0))
    }

    /// The master's frequency steps even without sync, phase modulation only with phase output.
    fn ramps(&self, call: &Record) -> [Ramp; 5] {
        let master = clipped(call.float(MASTER_OR_GAIN_AT));
        let slave = clipped(call.float(FREQUENCY_AT));
        let width = fitting_width(call.float(WIDTH_OR_SHAPE_AT), slave);
        let modulation = call.float(PHASE_MODULATION_AT);
        let modulation_room = Room {
            stepped: call.phase_output(),
            ..Room::within(MODULATION)
        };
        let frequency_room = Room::frequency(FREQUENCY_END);
        let to = |value, target, room| Ramp::new(value, target, call.length(), room);
        [
            to(self.master_frequency, master, frequency_room),
            to(self.slave_frequency, slave, frequency_room),
            to(self.pw, width, Room::width()),
            to(
                self.waveshape,
                call.float(WAVESHAPE_AT),
                Room::within(WAVESHAPE),
            ),
            to(self.phase_modulation, modulation, modulation_room),
        ]
    }

    fn store(&mut self, [master, slave, pw, waveshape, modulation]: [f32; 5]) {
        self.master_frequency = master;
        self.slave_frequency = slave;
        self.pw = pw;
        self.waveshape = waveshape;
        self.phase_modulation = modulation;
    }

    fn sample(
        &mut self,
        call: &Record,
        steps: [f32; 5],
        _old: f32,
        crossings: &mut Vec<Crossing>,
    ) -> (f32, Counts) {
        let [master, slave, pw, waveshape, modulation] = steps;
        let wave = Wave::new(slave, pw, waveshape);
        let mut pair = Pair::due(self.next_sample);
        let reset = match call.sync() {
            true => self.advance_master(master, &wave, &mut pair),
            false => None,
        };
        self.slave_phase += slave;
        if reset.is_none_or(|reset| reset.crosses) {
            let reset_time = reset.map(|reset| reset.time);
            self.cross(&wave, &mut pair, |edge, t| {
                crossings.push(Crossing::new(edge, t, reset_time));
            });
        }
        let mut counts = Counts::of(crossings);
        if let Some(reset) = reset {
            counts.cuts = u32::from(self.high);
            self.slave_phase = reset.time * slave;
            self.high = false;
        }
        // Without sync the slave's wraps are the cycles, and each of them is a fall.
        counts.cycles = match call.sync() {
            true => u32::from(reset.is_some()),
            false => counts.falls,
        };
        pair.next += wave.naive(self.slave_phase);
        self.next_sample = pair.next;
        self.previous_pw = pw;
        (self.output(call, pw, modulation, pair.this), counts)
    }
}

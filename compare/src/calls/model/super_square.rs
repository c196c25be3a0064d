//! The super square: two square waves, the slave's phase reset by the master's.

use super::counts::{Counts, Crossing, Edge};
use super::pair::Pair;
use super::ramp::{Ramp, Room};
use super::range::{frequency_parameter, frequency_state, phase, unit, FREQUENCY_END};
use super::render::Oscillator;
use super::targets::clipped;
use super::words::{flag, float};
use crate::calls::record::{Record, FREQUENCY_AT, WIDTH_OR_SHAPE_AT};

#[derive(Clone, Copy)]
pub struct SuperSquare {
    master_phase: f32,
    slave_phase: f32,
    next_sample: f32,
    high: bool,
    master_frequency: f32,
    slave_frequency: f32,
}

/// A wrap of the master phase within a sample.
#[derive(Clone, Copy)]
struct Reset {
    time: f32,
    /// Whether the slave crosses before it.
    crosses: bool,
}

fn slave_factor(shape: f32) -> f32 {
    if shape < 0.5 {
        0.51 + 0.98 * shape
    } else {
        let above = shape - 0.5;
        1.0 + 16.0 * above * above
    }
}

fn square(phase: f32) -> f32 {
    if phase < 0.5 {
        0.0
    } else {
        1.0
    }
}

impl SuperSquare {
    /// Moves the master; where it wraps, takes the slave's value at that moment out again.
    fn advance_master(&mut self, master: f32, slave: f32, pair: &mut Pair) -> Option<Reset> {
        self.master_phase += master;
        if self.master_phase < 1.0 {
            return None;
        }
        self.master_phase -= 1.0;
        let time = self.master_phase / master;
        let mut at_reset = self.slave_phase + (1.0 - time) * slave;
        let wraps = at_reset >= 1.0;
        if wraps {
            at_reset -= 1.0;
        }
        pair.jump(-square(at_reset), time);
        Some(Reset {
            time,
            crosses: wraps || (!self.high && at_reset >= 0.5),
        })
    }

    /// Rises at half a cycle and falls at a whole one, as long as there is one to come. Each is told
    /// by its edge and its t.
    fn cross(&mut self, slave: f32, pair: &mut Pair, mut tell: impl FnMut(Edge, f32)) {
        loop {
            if !self.high && self.slave_phase >= 0.5 {
                let t = (self.slave_phase - 0.5) / slave;
                pair.jump(1.0, t);
                self.high = true;
                tell(Edge::Rise, t);
            } else if self.high && self.slave_phase >= 1.0 {
                self.slave_phase -= 1.0;
                let t = self.slave_phase / slave;
                pair.jump(-1.0, t);
                self.high = false;
                tell(Edge::Fall, t);
            } else {
                return;
            }
        }
    }
}

impl Oscillator<2> for SuperSquare {
    fn from_words(words: &[u32]) -> Option<Self> {
        Some(SuperSquare {
            master_phase: float(words[0]),
            slave_phase: float(words[1]),
            next_sample: float(words[2]),
            high: flag(words[3])?,
            master_frequency: float(words[4]),
            slave_frequency: float(words[5]),
        })
    }

    fn to_words(self) -> Vec<u32> {
        vec![
            self.master_phase.to_bits(),
            self.slave_phase.to_bits(),
            self.next_sample.to_bits(),
            u32::from(self.high),
            self.master_frequency.to_bits(),
            self.slave_frequency.to_bits(),
        ]
    }

    fn in_range(&self, _call: &Record) -> bool {
        phase(self.master_phase, 1.0)
            && phase(self.slave_phase, 1.0)
            && frequency_state(self.master_frequency)
            && frequency_state(self.slave_frequency)
    }

    fn settings_in_range(call: &Record) -> bool {
        frequency_parameter(call.float(FREQUENCY_AT)) && unit(call.float(WIDTH_OR_SHAPE_AT))
    }

    fn ramps(&self, call: &Record) -> [Ramp; 2] {
        let frequency = call.float(FREQUENCY_AT);
        let slave = frequency * slave_factor(call.float(WIDTH_OR_SHAPE_AT));
        let frequency_room = Room::frequency(FREQUENCY_END);
        let to = |value, target, room| Ramp::new(value, clipped(target), call.length(), room);
        [
            to(self.master_frequency, frequency, frequency_room),
            to(self.slave_frequency, slave, frequency_room),
        ]
    }

    fn store(&mut self, [master, slave]: [f32; 2]) {
        self.master_frequency = master;
        self.slave_frequency = slave;
    }

    fn sample(
        &mut self,
        _call: &Record,
        [master, slave]: [f32; 2],
        _old: f32,
        crossings: &mut Vec<Crossing>,
    ) -> (f32, Counts) {
        let mut pair = Pair::due(self.next_sample);
        let reset = self.advance_master(master, slave, &mut pair);
        self.slave_phase += slave;
        if reset.is_none_or(|reset| reset.crosses) {
            let reset_time = reset.map(|reset| reset.time);
            self.cross(slave, &mut pair, |edge, t| {
                crossings.push(Crossing::new(edge, t, reset_time));
            });
        }
        let mut counts = Counts::of(crossings);
        if let Some(reset) = reset {
            counts.cycles = 1;
            counts.cuts = u32::from(self.high);
            self.slave_phase = reset.time * slave;
            self.high = false;
        }
        pair.next += square(self.slave_phase);
        self.next_sample = pair.next;
        (2.0 * pair.this - 1.0, counts)
    }
}

//! The NES triangle: a triangle in 2^bits steps, which fades to a smooth one at high frequencies.

use super::counts::{Counts, Crossing};
use super::pair::Pair;
use super::ramp::{Ramp, Room};
use super::range::{frequency_parameter, frequency_state, phase, FREQUENCY_END};
use super::render::Oscillator;
use super::targets::clipped;
use super::words::{flag, float};
use crate::calls::record::{Record, FREQUENCY_AT};

const MOST_BITS: u32 = 16;

#[derive(Clone, Copy)]
pub struct NesTriangle {
    phase: f32,
    next_sample: f32,
    step: i32,
    ascending: bool,
    frequency: f32,
}

/// The staircase of a bit depth: how many steps a cycle has, and how they are scaled.
struct Stairs {
    count: i32,
    top: i32,
    scale: f32,
}

/// What one sample goes by: its frequency, and how much of each triangle is heard.
struct Mix {
    frequency: f32,
    stairs: f32,
    smooth: f32,
}

impl Stairs {
    fn new(bits: u32) -> Self {
        if bits == 1 {
            return Stairs {
                count: 2,
                top: 2,
                scale: 2.0,
            };
        }
        let count = 1 << bits;
        Stairs {
            count,
            top: count - 1,
            scale: 4.0 / (count - 2) as f32,
        }
    }

    fn mix(&self, frequency: f32) -> Mix {
        let count = self.count as f32;
        let fade = ((frequency - 0.5 / count) * 2.0 * count).clamp(0.0, 1.0);
        Mix {
            frequency,
            stairs: 1.0 - fade,
            smooth: fade * 2.0 / self.scale,
        }
    }

    /// Up by 1 on the way up, down by 1 on the way down, and level at both ends.
    fn jump_into(&self, step: i32) -> f32 {
        let up = step < self.count / 2;
        match self.count {
            2 if up => -1.0,
            2 => 1.0,
            _ if step == 0 || step == self.count / 2 => 0.0,
            _ if up => 1.0,
            _ => -1.0,
        }
    }

    fn height(&self, step: i32) -> f32 {
        let height = if step < self.count / 2 {
            step
        } else {
            self.top - step
        };
        height as f32
    }
}

impl Mix {
    /// How much the slope of the smooth triangle changes at its corners.
    fn corner(&self) -> f32 {
        4.0 * self.frequency * self.smooth
    }
}

/// Whether a call's bits are ones that a call may have.
fn depth(bits: u32) -> bool {
    (1..=MOST_BITS).contains(&bits)
}

impl NesTriangle {
    /// The top of the smooth triangle.
    fn turn_down(&mut self, mix: &Mix, pair: &mut Pair) {
        if !self.ascending || self.phase < 0.5 {
            return;
        }
        let corner = mix.corner();
        if corner != 0.0 {
            pair.bend(-corner, (self.phase - 0.5) / mix.frequency);
        }
        self.ascending = false;
    }

    /// Goes to another step, over the end of the cycle where that is where it lies.
    fn enter(&mut self, reached: i32, stairs: &Stairs, mix: &Mix, pair: &mut Pair) -> Counts {
        let wraps = reached >= stairs.count;
        self.step = reached;
        if wraps {
            self.phase -= 1.0;
            self.step -= stairs.count;
        }
        let jump = stairs.jump_into(self.step) * mix.stairs;
        if jump != 0.0 {
            let count = stairs.count as f32;
            let past = self.phase * count - self.step as f32;
            pair.jump(jump, past / (mix.frequency * count));
        }
        if wraps {
            let corner = mix.corner();
            if corner != 0.0 {
                pair.bend(corner, self.phase / mix.frequency);
            }
            self.ascending = true;
        }
        Counts {
            cycles: u32::from(wraps),
            rises: 1,
            ..Counts::default()
        }
    }
}

impl Oscillator<1> for NesTriangle {
    fn from_words(words: &[u32]) -> Option<Self> {
        Some(NesTriangle {
            phase: float(words[0]),
            next_sample: float(words[1]),
            step: words[2] as i32,
            ascending: flag(words[3])?,
            frequency: float(words[4]),
        })
    }

    fn to_words(self) -> Vec<u32> {
        vec![
            self.phase.to_bits(),
            self.next_sample.to_bits(),
            self.step as u32,
            u32::from(self.ascending),
            self.frequency.to_bits(),
        ]
    }

    /// Bits that no call may have are read as 16 here, so that the state is judged first.
    fn in_range(&self, call: &Record) -> bool {
        let bits = match depth(call.bits()) {
            true => call.bits(),
            false => MOST_BITS,
        };
        phase(self.phase, 1.0)
            && (0..1 << bits).contains(&self.step)
            && frequency_state(self.frequency)
    }

    fn settings_in_range(call: &Record) -> bool {
        frequency_parameter(call.float(FREQUENCY_AT)) && depth(call.bits())
    }

    fn ramps(&self, call: &Record) -> [Ramp; 1] {
        let target = clipped(call.float(FREQUENCY_AT));
        let to = |value, target, room| Ramp::new(value, target, call.length(), room);
        [to(self.frequency, target, Room::frequency(FREQUENCY_END))]
    }

    fn store(&mut self, [frequency]: [f32; 1]) {
        self.frequency = frequency;
    }

    fn sample(
        &mut self,
        call: &Record,
        [frequency]: [f32; 1],
        _old: f32,
        _crossings: &mut Vec<Crossing>,
    ) -> (f32, Counts) {
        let stairs = Stairs::new(call.bits());
        let mix = stairs.mix(frequency);
        let mut pair = Pair::due(self.next_sample);
        self.phase += frequency;
        self.turn_down(&mix, &mut pair);
        let reached = (self.phase * stairs.count as f32) as i32;
        let counts = match reached == self.step {
            true => Counts::default(),
            false => self.enter(reached, &stairs, &mix, &mut pair),
        };
        pair.next += mix.stairs * stairs.height(self.step);
        let smooth = if self.phase < 0.5 {
            2.0 * self.phase
        } else {
            2.0 - 2.0 * self.phase
        };
        pair.next += mix.smooth * smooth;
        self.next_sample = pair.next;
        (pair.this * stairs.scale - 1.0, counts)
    }
}

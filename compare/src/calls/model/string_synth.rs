//! The string synth: four saws an octave apart from one phase, added to what the buffer holds.

use super::counts::{Counts, Crossing};
use super::pair::Pair;
use super::ramp::{Ramp, Room};
use super::range::*;
use super::render::Oscillator;
use super::words::float;
use crate::calls::record::{Record, FREQUENCY_AT, MASTER_OR_GAIN_AT};

const HIGHEST: f32 = 0.5;
const STEPS: i32 = 8;

#[derive(Clone, Copy)]
pub struct StringSynth {
    phase: f32,
    next_sample: f32,
    segment: i32,
    frequency: f32,
    saw_8_gain: f32,
    saw_4_gain: f32,
    saw_2_gain: f32,
    saw_1_gain: f32,
}

/// The frequency of the phase, and by how many places the registration moves up: two for each
/// octave that the phase is played lower.
fn octave(frequency: f32) -> (f32, usize) {
    let mut scaled = frequency * 8.0;
    let mut places = 0;
    while scaled > HIGHEST {
        scaled *= 0.5;
        places += 2;
    }
    (scaled, places)
}

/// The gains of the four saws: a square wave is twice a saw less the saw above it.
fn gains(call: &Record, places: usize) -> [f32; 4] {
    let asked = call.registration();
    let at = |place: usize| match place.checked_sub(places) {
        Some(i) => asked[i],
        None => 0.0,
    };
    let gain = call.float(MASTER_OR_GAIN_AT);
    [
        (at(0) + 2.0 * at(1)) * gain,
        (at(2) - at(1) + 2.0 * at(3)) * gain,
        (at(4) - at(3) + 2.0 * at(5)) * gain,
        (at(6) - at(5)) * gain,
    ]
}

/// How far all saws together fall on entering a segment.
fn fall_into(segment: i32, wraps: bool, [saw_8, saw_4, saw_2, saw_1]: [f32; 4]) -> f32 {
    let mut fall = 0.0;
    if wraps {
        fall -= saw_8;
    }
    if segment % 4 == 0 {
        fall -= saw_4;
    }
    if segment % 2 == 0 {
        fall -= saw_2;
    }
    fall - saw_1
}

impl StringSynth {
    /// Goes to another segment, over the end of the cycle where that is where it lies.
    fn enter(&mut self, reached: i32, steps: [f32; 5], pair: &mut Pair) -> Counts {
        let [frequency, gains @ ..] = steps;
        let wraps = reached == STEPS;
        self.segment = reached;
        if wraps {
            self.phase -= 8.0;
            self.segment -= STEPS;
        }
        let fall = fall_into(self.segment, wraps, gains);
        if fall != 0.0 {
            pair.jump(fall, (self.phase - self.segment as f32) / frequency);
        }
        Counts {
            cycles: u32::from(wraps),
            rises: 1,
            ..Counts::default()
        }
    }
}

impl Oscillator<5> for StringSynth {
    fn from_words(words: &[u32]) -> Option<Self> {
        Some(StringSynth {
            phase: float(words[0]),
            next_sample: float(words[1]),
            segment: words[2] as i32,
            frequency: float(words[3]),
            saw_8_gain: float(words[4]),
            saw_4_gain: float(words[5]),
            saw_2_gain: float(words[6]),
            saw_1_gain: float(words[7]),
        })
    }

    fn to_words(self) -> Vec<u32> {
        vec![
            self.phase.to_bits(),
            self.next_sample.to_bits(),
            self.segment as u32,
            self.frequency.to_bits(),
            self.saw_8_gain.to_bits(),
            self.saw_4_gain.to_bits(),
            self.saw_2_gain.to_bits(),
            self.saw_1_gain.to_bits(),
        ]
    }

    fn in_range(&self, _call: &Record) -> bool {
        phase(self.phase, 8.0)
            && (0..STEPS).contains(&self.segment)
            && within(self.frequency, (0.0, STRING_FREQUENCY_END))
            && within(self.saw_8_gain, MODULATION)
            && within(self.saw_4_gain, MODULATION)
            && within(self.saw_2_gain, MODULATION)
            && within(self.saw_1_gain, MODULATION)
    }

    fn registration_fits(call: &Record) -> bool {
        call.registration_count() == 7
    }

    fn settings_in_range(call: &Record) -> bool {
        let asked = call.registration();
        frequency_parameter(call.float(FREQUENCY_AT))
            && unit(asked[0])
            && unit(asked[1])
            && unit(asked[2])
            && unit(asked[3])
            && unit(asked[4])
            && unit(asked[5])
            && unit(asked[6])
            && within(call.float(MASTER_OR_GAIN_AT), (0.0, 4.0))
    }

    fn too_high(call: &Record) -> bool {
        call.float(FREQUENCY_AT) > HIGHEST
    }

    fn ramps(&self, call: &Record) -> [Ramp; 5] {
        let (frequency, places) = octave(call.float(FREQUENCY_AT));
        let [saw_8, saw_4, saw_2, saw_1] = gains(call, places);
        let to = |value, target, room| Ramp::new(value, target, call.length(), room);
        let frequency_room = Room::frequency(STRING_FREQUENCY_END);
        let gain_room = Room::within(MODULATION);
        [
            to(self.frequency, frequency, frequency_room),
            to(self.saw_8_gain, saw_8, gain_room),
            to(self.saw_4_gain, saw_4, gain_room),
            to(self.saw_2_gain, saw_2, gain_room),
            to(self.saw_1_gain, saw_1, gain_room),
        ]
    }

    fn store(&mut self, [frequency, saw_8, saw_4, saw_2, saw_1]: [f32; 5]) {
        self.frequency = frequency;
        self.saw_8_gain = saw_8;
        self.saw_4_gain = saw_4;
        self.saw_2_gain = saw_2;
        self.saw_1_gain = saw_1;
    }

    fn sample(
        &mut self,
        _call: &Record,
        steps: [f32; 5],
        old: f32,
        _crossings: &mut Vec<Crossing>,
    ) -> (f32, Counts) {
        let [frequency, saw_8, saw_4, saw_2, saw_1] = steps;
        let mut pair = Pair::due(self.next_sample);
        self.phase += frequency;
        let reached = self.phase as i32;
        let counts = match reached == self.segment {
            true => Counts::default(),
            false => self.enter(reached, steps, &mut pair),
        };
        // Each saw's own phase is what is left of the common one in its octave.
        let within_octave =
            |length: i32| self.phase - (self.segment - self.segment % length) as f32;
        pair.next += (self.phase - 4.0) * saw_8 * 0.125;
        pair.next += (within_octave(4) - 2.0) * saw_4 * 0.25;
        pair.next += (within_octave(2) - 1.0) * saw_2 * 0.5;
        pair.next += (within_octave(1) - 0.5) * saw_1;
        self.next_sample = pair.next;
        (old + 2.0 * pair.this, counts)
    }
}

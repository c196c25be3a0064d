//! Random runs of a kind that has sync, in which resets and jumps of the slave's width or step meet. A
//! run goes from cycle to cycle of the master: one sample brings the steps to where they stay, a block
//! goes on until the master is close to its end, and in another sample it wraps.

use crate::calls::make::fixed::plain;
use crate::calls::record::*;
use crate::calls::{model, start};
use crate::lists::job::{job, Job};
use crate::random::Random;

const SYNC: u8 = 1;
/// A frequency above it is clipped.
const HIGHEST: f32 = 0.25;
/// From there on a single step brings a phase to 1.
const NEAR_THE_END: f32 = 1.0 - HIGHEST;

/// Frequency, master frequency, width or shape.
type Settings = [f32; 3];

pub fn run(length: usize, random: &mut Random) -> Vec<Job> {
    let kind = random.pick(&[SHAPE, SHAPE, SUPER_SQUARE]);
    let mut state = start(kind, true);
    let mut steady = None;
    let next = |_| {
        let master = f32::from_bits(state[0]);
        let mut call = match steady.take() {
            Some(_) if master >= NEAR_THE_END => call(kind, 1, wrapping(master, random)),
            Some(settings) => {
                steady = Some(settings);
                let end = random.pick(&[NEAR_THE_END, 1.0]);
                call(kind, samples_up_to(end, master, settings), settings)
            }
            None => {
                let settings = slow(random);
                steady = Some(settings);
                call(kind, 1, settings)
            }
        };
        call.set_state_words(&state);
        let outcome = model::call(&call, &mut vec![0.0; call.length()]);
        state = outcome.map_or(call.state_words(), |outcome| outcome.words);
        job(&call)
    };
    (0..length).map(next).collect()
}

/// The master wraps at any time of the sample; the slave makes a large step, and its width is anywhere.
fn wrapping(master: f32, random: &mut Random) -> Settings {
    let any = random.between(1.0 - master, HIGHEST);
    let step = random.pick(&[any, HIGHEST]);
    let frequency = random.between(0.05, HIGHEST);
    [frequency, step, random.between(0.0, 1.0)]
}

/// The slave comes along with the master, and is low until close to the end of its cycle; or any.
fn slow(random: &mut Random) -> Settings {
    let master = random.between(0.01, 0.06);
    let any = random.between(0.01, HIGHEST);
    let along = master * random.between(0.6, 1.0);
    let frequency = random.pick(&[master, along, along, any]);
    let width = random.between(0.6, 1.0);
    [frequency, master, random.pick(&[width, 1.0])]
}

/// How many steps bring the master close to this end; one where it is there.
fn samples_up_to(end: f32, master: f32, [_, step, _]: Settings) -> u16 {
    (((end - master) / step) as u16).max(1)
}

/// Both of the super square's frequencies come from one setting, which is here the master's.
fn call(kind: u8, length: u16, [frequency, master, width]: Settings) -> Record {
    let mut call = plain(kind);
    call.set_length(length);
    call.set_float(WIDTH_OR_SHAPE_AT, width);
    call.set_float(FREQUENCY_AT, master);
    if kind == SHAPE {
        call.set_flags(SYNC);
        call.set_float(FREQUENCY_AT, frequency);
        call.set_float(MASTER_OR_GAIN_AT, master);
    }
    call
}

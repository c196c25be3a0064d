//! What all calls share: the checks in their order, the search for a step outside its room, and the
//! play of the buffer.

use super::counts::{Counts, Crossing};
use super::ramp::{first_outside, Ramp};
use crate::calls::record::Record;

const LONGEST_BLOCK: usize = 4096;
const DRIFT: usize = 6;

/// What a sample counted.
#[derive(Debug)]
pub struct Sample {
    pub counts: Counts,
    /// Those of an oscillator that has sync, in their order; of others none are kept.
    pub crossings: Vec<Crossing>,
    /// The state that it left, in which the interpolated fields hold its steps.
    #[cfg(test)]
    pub words: Vec<u32>,
}

/// What a call gives back, beside the samples.
#[derive(Debug)]
pub struct Outcome {
    pub answer: usize,
    /// The sample of a Drift, else 0.
    pub index: usize,
    pub counts: Counts,
    pub words: Vec<u32>,
    /// What each sample counted, where the call is answered.
    pub samples: Vec<Sample>,
}

impl Outcome {
    /// How many samples have a rise, a fall and a rise, late or not.
    pub fn double_rises(&self) -> usize {
        let crossed = |sample: &Sample| (sample.counts.all_rises(), sample.counts.all_falls());
        let crossed = self.samples.iter().map(crossed);
        crossed.filter(|&both| both == (2, 1)).count()
    }
}

/// One oscillator: its state, of which `RAMPS` fields are interpolated.
pub trait Oscillator<const RAMPS: usize>: Copy {
    /// The state that the words stand for; nothing where a word stands for no value.
    fn from_words(words: &[u32]) -> Option<Self>;
    fn to_words(self) -> Vec<u32>;
    fn in_range(&self, call: &Record) -> bool;
    fn settings_in_range(call: &Record) -> bool;
    /// The interpolated fields on their way to this call's targets.
    fn ramps(&self, call: &Record) -> [Ramp; RAMPS];
    /// Puts the interpolated fields back.
    fn store(&mut self, values: [f32; RAMPS]);
    /// One sample, from this sample's steps and what the buffer held; an oscillator that has sync
    /// also tells its crossings.
    fn sample(
        &mut self,
        call: &Record,
        steps: [f32; RAMPS],
        old: f32,
        crossings: &mut Vec<Crossing>,
    ) -> (f32, Counts);

    fn registration_fits(_call: &Record) -> bool {
        true
    }

    fn too_high(_call: &Record) -> bool {
        false
    }
}

/// An answer other than Done, with the index that a Drift carries.
struct Refusal(usize, usize);

pub fn render<O: Oscillator<N>, const N: usize>(call: &Record, out: &mut [f32]) -> Outcome {
    let words = call.state_words();
    match checked::<O, N>(call, &words, out.len()) {
        Ok(state) => play(state, call, out),
        Err(Refusal(answer, index)) => Outcome {
            answer,
            index,
            counts: Counts::default(),
            words,
            samples: Vec::new(),
        },
    }
}

/// The state of a call that is answered, or the first refusal that applies.
fn checked<O: Oscillator<N>, const N: usize>(
    call: &Record,
    words: &[u32],
    length: usize,
) -> Result<O, Refusal> {
    let state = O::from_words(words);
    let refused = |answer: usize| match answer {
        1 => length > LONGEST_BLOCK,
        2 => !O::registration_fits(call),
        3 => !state.is_some_and(|state| state.in_range(call)),
        4 => !O::settings_in_range(call),
        5 => O::too_high(call),
        _ => false,
    };
    let order = [1, 2, 3, 4, 5, DRIFT];
    for answer in order {
        if refused(answer) {
            return Err(Refusal(answer, 0));
        }
        if answer == DRIFT {
            let steps = state.map(|state| first_outside(state.ramps(call), length));
            if let Some(Some(sample)) = steps {
                return Err(Refusal(DRIFT, sample));
            }
        }
    }
    Ok(state.expect("words that stand for no state are refused"))
}

fn play<O: Oscillator<N>, const N: usize>(mut state: O, call: &Record, out: &mut [f32]) -> Outcome {
    let mut ramps = state.ramps(call);
    let mut sum = Counts::default();
    let mut samples = Vec::with_capacity(out.len());
    for place in out.iter_mut() {
        let steps = ramps.each_mut().map(Ramp::step);
        let mut crossings = Vec::new();
        let (heard, counts) = state.sample(call, steps, *place, &mut crossings);
        *place = heard;
        state.store(steps);
        sum.add(&counts);
        samples.push(Sample {
            counts,
            crossings,
            #[cfg(test)]
            words: state.to_words(),
        });
    }
    Outcome {
        answer: 0,
        index: 0,
        counts: sum,
        words: state.to_words(),
        samples,
    }
}

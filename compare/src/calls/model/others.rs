//! The calls other than `render`: they answer for the state alone, and touch no sample.

use super::counts::Counts;
use super::render::Outcome;
use crate::calls::record::{Record, GIVEN_AT};
use crate::starts::{init, set};

pub fn set_master_phase(call: &Record) -> Outcome {
    let words = call.state_words();
    outcome(set(&std::array::from_fn(|i| words[i]), call.word(GIVEN_AT)))
}

pub fn init_classic(call: &Record) -> Outcome {
    let words = call.state_words();
    outcome(init(
        &std::array::from_fn(|i| words[i]),
        call.word(GIVEN_AT),
    ))
}

fn outcome<const WORDS: usize>((answer, words): (u32, [u32; WORDS])) -> Outcome {
    Outcome {
        answer: answer as usize,
        index: 0,
        counts: Counts::default(),
        words: words.to_vec(),
        samples: Vec::new(),
    }
}

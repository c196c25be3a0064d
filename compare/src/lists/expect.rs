//! What the renderer prints for a job list, from the second implementation, which is held against
//! the ported Rust bit by bit wherever a call is answered.

use super::job;
use super::{refused, Tried, JOB_BYTES};
use crate::calls::expect::held_call;
use crate::calls::{answer_and_counts, start, Kinds};

const BAD_INPUT: &str = "8\n";
const BAD_RECORD: &str = "7 0 0 0 0 0 0";

/// The whole text, a line for each record.
pub fn text(input: &[u8], tried: &mut Tried) -> Result<String, String> {
    text_from(Carried::start(), input, tried)
}

/// The text of a list whose records go on from these states.
pub fn text_from(mut carried: Carried, input: &[u8], tried: &mut Tried) -> Result<String, String> {
    tried.lists += 1;
    if refused(input) {
        tried.bad_inputs += 1;
        return Ok(BAD_INPUT.to_string());
    }
    let mut text = String::new();
    for (index, record) in input.chunks(JOB_BYTES).enumerate() {
        let line = carried
            .next(record, tried)
            .map_err(|told| format!("record {index}: {told}"))?;
        text += &format!("{index} {line}\n");
    }
    Ok(text)
}

/// The state words of each kind, by its number, as they are carried over a list.
pub struct Carried(pub [Vec<u32>; Kinds::COUNT as usize + 1]);

impl Carried {
    pub fn start() -> Self {
        Carried([0, 1, 2, 3, 4, 5, 6].map(|kind| start(kind, true)))
    }

    /// Makes the call that a record asks for. A refused one hands the state back as it was given.
    fn next(&mut self, record: &[u8], tried: &mut Tried) -> Result<String, String> {
        let Some(mut call) = job::call(record) else {
            tried.malformed += 1;
            return Ok(BAD_RECORD.to_string());
        };
        let state = &mut self.0[usize::from(call.kind())];
        call.set_state_words(state);
        let mut samples = vec![0.0; call.length()];
        let outcome = held_call(&call, &mut samples)?;
        tried.calls.add(call.kind(), &samples, &outcome);
        let line = answer_and_counts(&outcome);
        *state = outcome.words;
        Ok(line)
    }
}

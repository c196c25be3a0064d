//! The lines, from the second implementation, which is held against the ported Rust bit by bit
//! wherever a call is answered.

use crate::calls::expect::held_call;
use crate::calls::record::Record;
use crate::calls::{answer_and_counts, checksum};
use crate::lists::expect::Carried;
use crate::lists::framed::{lists, END_OF_TEXT};
use crate::lists::{job, refused, Tried, JOB_BYTES};

const BAD_INPUT: &str = "8\n";
const BAD_RECORD: &str = "7 0 0 0 0 0 0";

/// The text of each list of a stream, each with its last line.
pub fn texts(input: &[u8], tried: &mut Tried) -> Result<Vec<u8>, String> {
    let mut texts = Vec::new();
    for (number, list) in lists(input).into_iter().enumerate() {
        let text = text(list, |_| (), tried).map_err(|e| format!("list {number}, {e}"))?;
        texts.extend(text.into_bytes());
        texts.extend(END_OF_TEXT);
    }
    Ok(texts)
}

/// The lines of a list. `handing` may change each call before it is made, for a test.
pub fn text(
    list: &[u8],
    handing: impl Fn(&mut Record),
    tried: &mut Tried,
) -> Result<String, String> {
    tried.lists += 1;
    if refused(list) {
        tried.bad_inputs += 1;
        return Ok(BAD_INPUT.to_string());
    }
    let mut carried = Carried::start();
    let mut text = String::new();
    for (index, record) in list.chunks(JOB_BYTES).enumerate() {
        let (told, samples) = played(&mut carried, record, &handing, tried)
            .map_err(|told| format!("record {index}: {told}"))?;
        let (count, sum) = (samples.len(), checksum(&samples));
        text += &format!("{index} {told} {count} {sum:08x}\n");
    }
    Ok(text)
}

/// What is told of a record's call, and the samples that it left: none where it is refused.
pub fn played(
    carried: &mut Carried,
    record: &[u8],
    handing: impl Fn(&mut Record),
    tried: &mut Tried,
) -> Result<(String, Vec<f32>), String> {
    let Some(mut call) = job::call(record) else {
        tried.malformed += 1;
        return Ok((BAD_RECORD.to_string(), Vec::new()));
    };
    let state = &mut carried.0[usize::from(call.kind())];
    call.set_state_words(state);
    handing(&mut call);
    let mut samples = vec![0.0; call.length()];
    let outcome = held_call(&call, &mut samples)?;
    tried.calls.add(call.kind(), &samples, &outcome);
    if outcome.answer != 0 {
        samples.clear();
    }
    let told = answer_and_counts(&outcome);
    *state = outcome.words;
    Ok((told, samples))
}

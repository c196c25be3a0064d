//! A second implementation of `set_master_phase`, over words, with the refusal that the port adds.

use super::STATE_WORDS;

/// The answer's number, and the words after it: the phase alone is stored, bit by bit.
pub fn set(state: &[u32; STATE_WORDS], phase: u32) -> (u32, [u32; STATE_WORDS]) {
    let value = f32::from_bits(phase);
    let is_fit = 0.0 <= value && value < 1.0;
    let number = if is_fit { 0 } else { 4 };
    let mut after = *state;
    if is_fit {
        after[0] = phase;
    }
    (number, after)
}

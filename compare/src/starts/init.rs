//! A second implementation of the classic oscillator's `init`, over words, with the refusal that the
//! port adds.

use crate::REF_SAMPLE_RATE;

/// How many words the classic's state has.
pub const CLASSIC_WORDS: usize = 9;

const LOWEST_RATE: f32 = 8_000.0;
const HIGHEST_RATE: f32 = 384_000.0;

/// The answer's number, and the words after it: the initial ones, or all as they were given. The
/// state is not tested.
pub fn init(state: &[u32; CLASSIC_WORDS], rate: u32) -> (u32, [u32; CLASSIC_WORDS]) {
    let rate = f32::from_bits(rate);
    let is_fit = LOWEST_RATE <= rate && rate <= HIGHEST_RATE;
    if is_fit {
        (0, initial(rate))
    } else {
        (4, *state)
    }
}

/// The words that the source's `init` leaves at a sample rate.
pub fn initial(rate: f32) -> [u32; CLASSIC_WORDS] {
    let coefficient = 0.25 * REF_SAMPLE_RATE / rate;
    let gain = 1.0 / coefficient;
    [
        0.5f32.to_bits(),
        0.0f32.to_bits(),
        1.0f32.to_bits(),
        0.0f32.to_bits(),
        1,
        0.001f32.to_bits(),
        0.5f32.to_bits(),
        coefficient.to_bits(),
        gain.to_bits(),
    ]
}

//! The states that the source starts from, as words in the order of its fields.

use crate::calls::record::{CLASSIC, NES, SAW, SHAPE, STRING, SUPER_SQUARE};
use crate::starts::initial;

/// The sample rate that the renderer starts the classic with.
const RENDERERS_RATE: f32 = 48_000.0;

/// The source's `Default` state of a kind, or the one that its `init` leaves.
pub fn start(kind: u8, initialised: bool) -> Vec<u32> {
    match (kind, initialised) {
        (SHAPE, false) => vec![
            f(0.0),
            f(0.0),
            f(0.0),
            f(0.0),
            0,
            f(0.0),
            f(0.0),
            f(0.0),
            f(0.0),
            f(0.0),
        ],
        (SHAPE, true) => vec![
            f(0.0),
            f(0.0),
            f(0.0),
            f(0.5),
            0,
            f(0.0),
            f(0.01),
            f(0.5),
            f(0.0),
            f(0.0),
        ],
        (SAW, false) => vec![f(0.0), f(0.0), f(0.0), 0, f(0.0), f(0.0), f(0.0)],
        (SAW, true) => vec![f(0.0), f(0.0), f(0.5), 0, f(0.01), f(0.5), f(0.0)],
        (SUPER_SQUARE, false) => vec![f(0.0), f(0.0), f(0.0), 0, f(0.0), f(0.0)],
        (SUPER_SQUARE, true) => vec![f(0.0), f(0.0), f(0.0), 0, f(0.0), f(0.01)],
        (NES, false) => vec![f(0.0), f(0.0), 0, 0, f(0.0)],
        (NES, true) => vec![f(0.0), f(0.0), 0, 1, f(0.001)],
        (STRING, false) => strings(f(0.0)),
        (STRING, true) => strings(f(0.001)),
        (CLASSIC, false) => vec![
            f(0.0),
            f(0.0),
            f(0.0),
            f(0.0),
            0,
            f(0.0),
            f(0.0),
            f(0.0),
            f(0.0),
        ],
        (CLASSIC, true) => initial(RENDERERS_RATE).to_vec(),
        _ => Vec::new(),
    }
}

/// All of a string's fields but the frequency are 0 in both.
fn strings(frequency: u32) -> Vec<u32> {
    vec![f(0.0), f(0.0), 0, frequency, f(0.0), f(0.0), f(0.0), f(0.0)]
}

fn f(value: f32) -> u32 {
    value.to_bits()
}

#[cfg(test)]
mod tests {
    use super::start;
    use crate::calls::original::starting_words;
    use crate::calls::Kinds;

    #[test]
    fn they_are_the_sources() {
        for kind in Kinds::all().list() {
            for initialised in [false, true] {
                assert_eq!(start(kind, initialised), starting_words(kind, initialised));
            }
        }
    }
}

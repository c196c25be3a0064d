//! What a 32-bit word stands for in a state.

pub fn float(word: u32) -> f32 {
    f32::from_bits(word)
}

/// A bool is 0 or 1; another word stands for none.
pub fn flag(word: u32) -> Option<bool> {
    match word {
        0 => Some(false),
        1 => Some(true),
        _ => None,
    }
}

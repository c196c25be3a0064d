//! The ranges that states and parameters keep to. A NaN lies outside each; negative zero is zero.

use crate::oscillator::oscillator::MIN_FREQUENCY;

/// The end of a frequency in a state, a sixteenth above the largest target.
pub const FREQUENCY_END: f32 = 17.0 / 64.0;
pub const STRING_FREQUENCY_END: f32 = 17.0 / 32.0;
/// How far the saw's phase may stand above 1 after a rise.
pub const HIGH_SAW_PHASE_END: f32 = 81.0 / 64.0;
pub const WAVESHAPE: (f32, f32) = (-1.0, 2.0);
/// Phase modulation and the string's four gains.
pub const MODULATION: (f32, f32) = (-16.0, 16.0);

pub fn within(x: f32, (low, high): (f32, f32)) -> bool {
    low <= x && x <= high
}

/// At least 0 and below `end`.
pub fn phase(x: f32, end: f32) -> bool {
    0.0 <= x && x < end
}

/// Pulse width, waveshape, shape, a registration entry; widths of a state.
pub fn unit(x: f32) -> bool {
    within(x, (0.0, 1.0))
}

pub fn frequency_parameter(x: f32) -> bool {
    within(x, (MIN_FREQUENCY, 1.0))
}

pub fn frequency_state(x: f32) -> bool {
    within(x, (0.0, FREQUENCY_END))
}

//! What a call's frequency and pulse width become before they are interpolated to.

use crate::oscillator::oscillator::MAX_FREQUENCY;

pub fn clipped(frequency: f32) -> f32 {
    if frequency >= MAX_FREQUENCY {
        MAX_FREQUENCY
    } else {
        frequency
    }
}

/// The pulse width that a frequency leaves room for: half a cycle from 0.25 up.
pub fn fitting_width(width: f32, frequency: f32) -> f32 {
    if frequency >= 0.25 {
        return 0.5;
    }
    let (low, high) = (frequency * 2.0, 1.0 - 2.0 * frequency);
    if width < low {
        low
    } else if width > high {
        high
    } else {
        width
    }
}

#[cfg(test)]
mod tests {
    use super::fitting_width;

    #[test]
    fn figure_p7() {
        assert_eq!(fitting_width(0.0, 0.125), 0.25);
        assert_eq!(fitting_width(0.9, 0.25), 0.5);
    }
}

//! Rust's `min`, `max`, `clamp` and `as i32` made total: Rust's own function wherever Rust says
//! what it gives, and the project's decision where Rust leaves it open or panics.

/// The largest number whose whole part the port works out.
const WHOLE_PART_END: f32 = 131_072.0;

/// Rust leaves open which zero it gives for two zeros of different sign; and of a signalling NaN
/// and a number it gives the number on x86-64, as it says, and a NaN on Arm.
fn left_open(x: f32, y: f32) -> bool {
    let zeros_of_both_signs = x == 0.0 && y == 0.0 && x.to_bits() != y.to_bits();
    zeros_of_both_signs || is_signalling(x) || is_signalling(y)
}

fn is_signalling(x: f32) -> bool {
    x.is_nan() && x.to_bits() & 0x40_0000 == 0
}

pub fn min(x: f32, y: f32) -> f32 {
    if left_open(x, y) {
        decided_min(x, y)
    } else {
        f32::min(x, y)
    }
}

pub fn max(x: f32, y: f32) -> f32 {
    if left_open(x, y) {
        decided_max(x, y)
    } else {
        f32::max(x, y)
    }
}

/// Rust panics unless `low <= high`, so for a NaN bound too.
pub fn clamp(x: f32, low: f32, high: f32) -> f32 {
    if low <= high {
        x.clamp(low, high)
    } else {
        decided_clamp(x, low, high)
    }
}

pub fn whole_part(x: f32) -> i32 {
    if (0.0..=WHOLE_PART_END).contains(&x) {
        x as i32
    } else {
        decided_whole_part(x)
    }
}

/// The second argument unless the first is smaller; a NaN gives way to the other argument.
fn decided_min(x: f32, y: f32) -> f32 {
    if y.is_nan() || x < y {
        x
    } else {
        y
    }
}

/// The second argument unless the first is larger; a NaN gives way to the other argument.
fn decided_max(x: f32, y: f32) -> f32 {
    if y.is_nan() || x > y {
        x
    } else {
        y
    }
}

/// Rust's two tests in their order, without its panic: a NaN bound never acts.
fn decided_clamp(x: f32, low: f32, high: f32) -> f32 {
    let raised = if x < low { low } else { x };
    if raised > high {
        high
    } else {
        raised
    }
}

/// The nearer end of the range; a NaN gives 0.
fn decided_whole_part(x: f32) -> i32 {
    if x > WHOLE_PART_END {
        WHOLE_PART_END as i32
    } else if x >= 0.0 {
        x as i32
    } else {
        0
    }
}

#[cfg(test)]
#[path = "answers_tests.rs"]
mod tests;

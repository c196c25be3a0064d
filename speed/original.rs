// The ported Rust, unchanged, as modules of the crate that includes this file. `target/speed/original` is a link that speed/run
// makes, to the folder that holds `oscillator` and `utils`.

/// `oscillator.rs` reads this constant of the crate's root.
pub const REF_SAMPLE_RATE: f32 = 48000.0;

#[path = "../target/speed/original/oscillator"]
pub mod oscillator {
    pub mod nes_triangle_oscillator;
    #[allow(clippy::module_inception)]
    pub mod oscillator;
    pub mod string_synth_oscillator;
    pub mod super_square_oscillator;
    pub mod variable_saw_oscillator;
    pub mod variable_shape_oscillator;
}

#[path = "../target/speed/original/utils"]
pub mod utils {
    pub mod parameter_interpolator;
    pub mod polyblep;
}

use oscillator::nes_triangle_oscillator::NesTriangleOscillator;
use oscillator::oscillator::{Oscillator, OscillatorShape};
use oscillator::string_synth_oscillator::StringSynthOscillator;
use oscillator::super_square_oscillator::SuperSquareOscillator;
use oscillator::variable_saw_oscillator::VariableSawOscillator;
use oscillator::variable_shape_oscillator::VariableShapeOscillator;

/// The classic's shape of a number.
fn shape_of(number: u32) -> OscillatorShape {
    match number {
        0 => OscillatorShape::ImpulseTrain,
        1 => OscillatorShape::Saw,
        2 => OscillatorShape::Triangle,
        3 => OscillatorShape::Slope,
        4 => OscillatorShape::Square,
        5 => OscillatorShape::SquareBright,
        6 => OscillatorShape::SquareDark,
        _ => OscillatorShape::SquareTriangle,
    }
}

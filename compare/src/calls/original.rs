//! Calls of the ported Rust, its state set from words and read back into them.

use super::record::*;
use crate::oscillator::nes_triangle_oscillator::NesTriangleOscillator;
use crate::oscillator::oscillator::{Oscillator, OscillatorShape};
use crate::oscillator::string_synth_oscillator::StringSynthOscillator;
use crate::oscillator::super_square_oscillator::SuperSquareOscillator;
use crate::oscillator::variable_saw_oscillator::VariableSawOscillator;
use crate::oscillator::variable_shape_oscillator::VariableShapeOscillator;

/// The sample rate that the classic starts with where a record names none.
const USUAL_RATE: f32 = 48_000.0;

/// The classic's shapes by their numbers.
const SHAPES: [OscillatorShape; MOST_SHAPE as usize + 1] = [
    OscillatorShape::ImpulseTrain,
    OscillatorShape::Saw,
    OscillatorShape::Triangle,
    OscillatorShape::Slope,
    OscillatorShape::Square,
    OscillatorShape::SquareBright,
    OscillatorShape::SquareDark,
    OscillatorShape::SquareTriangle,
];

/// Makes the call that a record asks for and that is not refused; gives the state words after it.
pub fn call(call: &Record, out: &mut [f32]) -> Vec<u32> {
    match call.asks() {
        Asks::Render => render(call, out),
        Asks::SetMasterPhase => set_master_phase(call),
        Asks::Init => {
            let mut state = Oscillator::from_words(&call.state_words());
            state.init(call.float(GIVEN_AT));
            state.to_words()
        }
        Asks::Nothing => call.state_words(),
    }
}

/// The word of `high`, which is a bool here, comes back as it was given unless it is another bool.
fn set_master_phase(call: &Record) -> Vec<u32> {
    const HIGH: usize = 4;
    let before = call.state_words();
    let mut state = VariableShapeOscillator::from_words(&before);
    state.set_master_phase(call.float(GIVEN_AT));
    let mut after = state.to_words();
    if (after[HIGH] != 0) == (before[HIGH] != 0) {
        after[HIGH] = before[HIGH];
    }
    after
}

pub fn render(call: &Record, out: &mut [f32]) -> Vec<u32> {
    let words = call.state_words();
    let frequency = call.float(FREQUENCY_AT);
    let width_or_shape = call.float(WIDTH_OR_SHAPE_AT);
    match call.kind() {
        SHAPE => render_shape(call, &words, out),
        SAW => {
            let mut state = VariableSawOscillator::from_words(&words);
            state.render(frequency, width_or_shape, call.float(WAVESHAPE_AT), out);
            state.to_words()
        }
        SUPER_SQUARE => {
            let mut state = SuperSquareOscillator::from_words(&words);
            state.render(frequency, width_or_shape, out);
            state.to_words()
        }
        NES => {
            let mut state = NesTriangleOscillator::from_words(&words);
            state.render(frequency, out, call.bits());
            state.to_words()
        }
        STRING => {
            let mut state = StringSynthOscillator::from_words(&words);
            let gain = call.float(MASTER_OR_GAIN_AT);
            state.render(frequency, &call.registration(), gain, out);
            state.to_words()
        }
        CLASSIC => {
            let mut state = Oscillator::from_words(&words);
            let shape = SHAPES[usize::from(call.shape())];
            state.render(frequency, width_or_shape, None, out, shape, false);
            state.to_words()
        }
        _ => words,
    }
}

fn render_shape(call: &Record, words: &[u32], out: &mut [f32]) -> Vec<u32> {
    let mut state = VariableShapeOscillator::from_words(words);
    state.render(
        call.float(MASTER_OR_GAIN_AT),
        call.float(FREQUENCY_AT),
        call.float(WIDTH_OR_SHAPE_AT),
        call.float(WAVESHAPE_AT),
        call.float(PHASE_MODULATION_AT),
        out,
        call.sync(),
        call.phase_output(),
    );
    state.to_words()
}

/// The coefficient and the gain that the classic's `init` computes for a sample rate.
pub fn classic_factors(rate: f32) -> [u32; 2] {
    let mut state = Oscillator::new();
    state.init(rate);
    let words = state.to_words();
    [words[7], words[8]]
}

/// The source's `Default` state of a kind, or the one that its `init` leaves.
pub fn starting_words(kind: u8, initialised: bool) -> Vec<u32> {
    macro_rules! start {
        ($oscillator:ty $(, $rate:expr)?) => {{
            let mut state = <$oscillator>::new();
            if initialised {
                state.init($($rate)?);
            }
            state.to_words()
        }};
    }
    match kind {
        SHAPE => start!(VariableShapeOscillator),
        SAW => start!(VariableSawOscillator),
        SUPER_SQUARE => start!(SuperSquareOscillator),
        NES => start!(NesTriangleOscillator),
        STRING => start!(StringSynthOscillator),
        CLASSIC => start!(Oscillator, USUAL_RATE),
        _ => Vec::new(),
    }
}

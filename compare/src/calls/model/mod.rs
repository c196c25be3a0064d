//! A second implementation of the six oscillators, with what the port adds to the source: refusals
//! by number, and the counts; and the states to start from.

mod classic;
mod counts;
mod nes_triangle;
mod others;
mod pair;
mod ramp;
mod range;
mod render;
mod start;
mod string_synth;
mod super_square;
mod targets;
mod variable_saw;
mod variable_shape;
mod words;

#[cfg(test)]
pub use counts::Counts;
pub use counts::{Crossing, Edge};
pub use render::{Outcome, Sample};
pub use start::start;

use super::record::{Asks, Record, CLASSIC, NES, SAW, SHAPE, STRING, SUPER_SQUARE};
use render::render;

/// Makes the call that a record asks for; nothing for a kind that no oscillator has, and for a shape
/// that is none.
pub fn call(record: &Record, out: &mut [f32]) -> Option<Outcome> {
    match record.asks() {
        Asks::Render => rendered(record, out),
        Asks::SetMasterPhase => Some(others::set_master_phase(record)),
        Asks::Init => Some(others::init_classic(record)),
        Asks::Nothing => None,
    }
}

fn rendered(record: &Record, out: &mut [f32]) -> Option<Outcome> {
    Some(match record.kind() {
        SHAPE => render::<variable_shape::VariableShape, 5>(record, out),
        SAW => render::<variable_saw::VariableSaw, 3>(record, out),
        SUPER_SQUARE => render::<super_square::SuperSquare, 2>(record, out),
        NES => render::<nes_triangle::NesTriangle, 1>(record, out),
        STRING => render::<string_synth::StringSynth, 5>(record, out),
        CLASSIC => render::<classic::Classic, 2>(record, out),
        _ => return None,
    })
}

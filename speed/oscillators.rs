//! The ported Rust behind functions of the face's shape (include/navuloqu.h), for bench.c to call. The state is the oscillator
//! itself in place of words, no result is written, and every answer is 0: the original neither refuses nor counts. The environment's
//! PREFIX begins the names, so that it can be linked twice.
#![no_std]
#![allow(dead_code)]
#![allow(clippy::missing_safety_doc, clippy::too_many_arguments)]

use core::slice::{from_raw_parts, from_raw_parts_mut};

include!("original.rs");

const DONE: u32 = 0;

macro_rules! init {
    ($name:ident, $oscillator:ty) => {
        #[export_name = concat!(env!("PREFIX"), "_", stringify!($name))]
        pub unsafe extern "C" fn $name(state: *mut $oscillator) {
            let mut oscillator = <$oscillator>::new();
            oscillator.init();
            state.write(oscillator)
        }
    };
}
init!(nes_triangle_init, NesTriangleOscillator);
init!(string_synth_init, StringSynthOscillator);
init!(super_square_init, SuperSquareOscillator);
init!(variable_saw_init, VariableSawOscillator);
init!(variable_shape_init, VariableShapeOscillator);

#[export_name = concat!(env!("PREFIX"), "_classic_init")]
pub unsafe extern "C" fn classic_init(state: *mut Oscillator, sample_rate: f32) -> u32 {
    let mut oscillator = Oscillator::new();
    oscillator.init(sample_rate);
    state.write(oscillator);
    DONE
}

#[export_name = concat!(env!("PREFIX"), "_classic_render")]
pub unsafe extern "C" fn classic_render(
    state: *mut Oscillator,
    frequency: f32,
    pw: f32,
    shape: u32,
    out: *mut f32,
    count: usize,
    _result: *mut u32,
) -> u32 {
    let out = from_raw_parts_mut(out, count);
    (*state).render(frequency, pw, None, out, shape_of(shape), false);
    DONE
}

#[export_name = concat!(env!("PREFIX"), "_nes_triangle_render")]
pub unsafe extern "C" fn nes_triangle_render(
    state: *mut NesTriangleOscillator,
    frequency: f32,
    num_bits: u32,
    out: *mut f32,
    count: usize,
    _result: *mut u32,
) -> u32 {
    (*state).render(frequency, from_raw_parts_mut(out, count), num_bits);
    DONE
}

#[export_name = concat!(env!("PREFIX"), "_string_synth_render")]
pub unsafe extern "C" fn string_synth_render(
    state: *mut StringSynthOscillator,
    frequency: f32,
    registration: *const f32,
    registration_count: usize,
    gain: f32,
    out: *mut f32,
    count: usize,
    _result: *mut u32,
) -> u32 {
    let registration = from_raw_parts(registration, registration_count);
    (*state).render(
        frequency,
        registration,
        gain,
        from_raw_parts_mut(out, count),
    );
    DONE
}

#[export_name = concat!(env!("PREFIX"), "_super_square_render")]
pub unsafe extern "C" fn super_square_render(
    state: *mut SuperSquareOscillator,
    frequency: f32,
    shape: f32,
    out: *mut f32,
    count: usize,
    _result: *mut u32,
) -> u32 {
    (*state).render(frequency, shape, from_raw_parts_mut(out, count));
    DONE
}

#[export_name = concat!(env!("PREFIX"), "_variable_saw_render")]
pub unsafe extern "C" fn variable_saw_render(
    state: *mut VariableSawOscillator,
    frequency: f32,
    pw: f32,
    waveshape: f32,
    out: *mut f32,
    count: usize,
    _result: *mut u32,
) -> u32 {
    (*state).render(frequency, pw, waveshape, from_raw_parts_mut(out, count));
    DONE
}

#[export_name = concat!(env!("PREFIX"), "_variable_shape_render")]
pub unsafe extern "C" fn variable_shape_render(
    state: *mut VariableShapeOscillator,
    master_frequency: f32,
    frequency: f32,
    pw: f32,
    waveshape: f32,
    phase_modulation: f32,
    sync: bool,
    phase_output: bool,
    out: *mut f32,
    count: usize,
    _result: *mut u32,
) -> u32 {
    let out = from_raw_parts_mut(out, count);
    (*state).render(
        master_frequency,
        frequency,
        pw,
        waveshape,
        phase_modulation,
        out,
        sync,
        phase_output,
    );
    DONE
}

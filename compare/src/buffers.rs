//! The string synth adds to its buffer, which may hold any bits: NaN, infinities, zeros of both
//! signs. `calls` fills the buffer with plain numbers, so here the static library itself is called,
//! block after block, and held against the ported Rust.

use crate::oscillator::string_synth_oscillator::StringSynthOscillator;
use crate::random::Random;

const WORDS: usize = 8;
/// Answer, index, cycles, rises, falls, cuts, late.
const RESULT_WORDS: usize = 7;

// The archive's names carry the version of include/navuloqu.h, whose declarations these are.
extern "C" {
    #[link_name = "navuloqu_3_string_synth_init"]
    fn navuloqu_string_synth_init(state: *mut [u32; WORDS]);
    #[link_name = "navuloqu_3_string_synth_render"]
    fn navuloqu_string_synth_render(
        state: *mut [u32; WORDS],
        frequency: f32,
        registration: *const f32,
        registration_count: usize,
        gain: f32,
        out: *mut f32,
        count: usize,
        result: *mut [u32; RESULT_WORDS],
    ) -> u32;
}

/// Any bits, every other sample one of those that matter.
fn sample(random: &mut Random) -> f32 {
    const ODD: [u32; 9] = [
        0x7fc0_0000,
        0xff80_0001,
        0x7f80_0000,
        0xff80_0000,
        0,
        0x8000_0000,
        1,
        0x7f7f_ffff,
        0xff7f_ffff,
    ];
    let bits = if random.one_in(2) {
        random.pick(&ODD)
    } else {
        random.bits()
    };
    f32::from_bits(bits)
}

fn same(a: u32, b: u32) -> bool {
    a == b || (f32::from_bits(a).is_nan() && f32::from_bits(b).is_nan())
}

/// Renders `count` blocks on both sides; says how many samples agree, and how many of them are no
/// number, or which block differs first.
pub fn compare(count: u64, seed: u64) -> Result<String, String> {
    let mut random = Random::new(seed);
    let mut words = [0; WORDS];
    unsafe { navuloqu_string_synth_init(&mut words) };
    let (mut samples, mut infinite, mut refused) = (0, 0, 0);
    for block in 0..count {
        let frequency = random.between(0.000001, 0.5);
        let registration: Vec<f32> = (0..7).map(|_| random.between(0.0, 1.0)).collect();
        let gain = random.between(0.0, 4.0);
        let length = random.below(65) as usize;
        let given: Vec<f32> = (0..length).map(|_| sample(&mut random)).collect();

        let (mut got, mut expected) = (given.clone(), given.clone());
        let mut original = StringSynthOscillator::from_words(&words);
        let (before, mut result) = (words, [0; RESULT_WORDS]);
        let answer = unsafe {
            navuloqu_string_synth_render(
                &mut words,
                frequency,
                registration.as_ptr(),
                registration.len(),
                gain,
                got.as_mut_ptr(),
                length,
                &mut result,
            )
        };
        if answer != result[0] {
            return Err(format!(
                "block {block}: {answer} is returned, and {} written",
                result[0]
            ));
        }
        let after = if answer == 0 && length > 0 {
            original.render(frequency, &registration, gain, &mut expected);
            original.to_words()
        } else {
            refused += u64::from(answer != 0);
            before.to_vec()
        };
        let bits = |all: &[f32]| all.iter().map(|x| x.to_bits()).collect::<Vec<u32>>();
        let pairs = [(bits(&got), bits(&expected)), (words.to_vec(), after)];
        for (ours, theirs) in pairs {
            if !ours.iter().zip(&theirs).all(|(a, b)| same(*a, *b)) {
                return Err(format!(
                    "block {block} differs: {ours:08x?}, the Rust {theirs:08x?}"
                ));
            }
        }
        samples += length;
        infinite += got.iter().filter(|x| !x.is_finite()).count();
    }
    Ok(format!("{count} blocks agree, {samples} samples, {infinite} of them NaN or infinite, {refused} blocks refused"))
}

//! The text that `crates/starts` has to print, from the second implementation, which is held against
//! the ported Rust: the starting states, and what `set_master_phase` and the classic's `init` leave.

use super::init::{init, CLASSIC_WORDS};
use super::set::set;
use super::{Record, RECORD_BYTES, STATE_WORDS};
use crate::calls::record::{CLASSIC, NES, SAW, SHAPE, STRING, SUPER_SQUARE};
use crate::calls::{canonical, start};
use crate::oscillator::nes_triangle_oscillator::NesTriangleOscillator;
use crate::oscillator::oscillator::Oscillator;
use crate::oscillator::string_synth_oscillator::StringSynthOscillator;
use crate::oscillator::super_square_oscillator::SuperSquareOscillator;
use crate::oscillator::variable_saw_oscillator::VariableSawOscillator;
use crate::oscillator::variable_shape_oscillator::VariableShapeOscillator;

/// The word of `high` in both states, of which a state keeps whether it is 0.
const HIGH: usize = 4;

/// The lines of the starting states, then a line for each record.
pub fn text(input: &[u8]) -> String {
    let mut text = starting_lines().join("\n") + "\n";
    for bytes in input.chunks(RECORD_BYTES) {
        text += &line(&Record::read(bytes));
        text += "\n";
    }
    text
}

/// The sample rate of the classic's starting lines.
const RATE: f32 = 48_000.0;

/// For each oscillator the state that `new` gives, the one that `init` makes of it, and the one that
/// `init` makes of a state whose words have all bits set.
pub fn starting_lines() -> Vec<String> {
    let mut lines = Vec::new();
    macro_rules! start {
        ($name:literal, $kind:expr, $oscillator:ty $(, $rate:expr)?) => {{
            let (new, init) = (start($kind, false), start($kind, true));
            hold(&new, &<$oscillator>::new().to_words());
            for before in [vec![0; new.len()], vec![u32::MAX; new.len()]] {
                let mut source = <$oscillator>::from_words(&before);
                source.init($($rate)?);
                hold(&init, &source.to_words());
            }
            lines.push(format!("{}, new:{}", $name, hexadecimal(&new)));
            lines.push(format!("{}, init:{}", $name, hexadecimal(&init)));
            lines.push(format!("{}, exported init:{}", $name, hexadecimal(&init)));
        }};
    }
    start!("variable shape", SHAPE, VariableShapeOscillator);
    start!("variable saw", SAW, VariableSawOscillator);
    start!("super square", SUPER_SQUARE, SuperSquareOscillator);
    start!("NES triangle", NES, NesTriangleOscillator);
    start!("string synth", STRING, StringSynthOscillator);
    start!("classic", CLASSIC, Oscillator, RATE);
    lines
}

/// Stops where the second implementation and the ported Rust differ.
fn hold(second: &[u32], original: &[u32]) {
    assert_eq!(second, original, "MISMATCH with the ported Rust");
}

/// What the forms of `set_master_phase` answer and leave, then those of the classic's `init`.
fn line(record: &Record) -> String {
    format!("{} {}", phase_set(record), classic_started(record))
}

/// Exported, by value, lent.
fn phase_set(record: &Record) -> String {
    let (number, exported) = set(&record.state, record.given);
    // These two are states of floats, in which a NaN has no pattern of its own.
    let by_value = as_state(&exported);
    hold(&by_value, &original(record, number));
    let (exported, by_value) = (hexadecimal(&exported), hexadecimal(&by_value));
    format!("{number}{exported} {number}{by_value} {number}{by_value}")
}

/// Exported, on a lent state.
fn classic_started(record: &Record) -> String {
    let given: [u32; CLASSIC_WORDS] = std::array::from_fn(|i| record.state[i]);
    let (number, exported) = init(&given, record.given);
    let by_value = as_state(&exported);
    let mut original = Oscillator::from_words(&given);
    if number == 0 {
        original.init(f32::from_bits(record.given));
    }
    let original: Vec<u32> = original.to_words().into_iter().map(canonical).collect();
    hold(&by_value, &original);
    let (exported, by_value) = (hexadecimal(&exported), hexadecimal(&by_value));
    format!("{number}{exported} {number}{by_value}")
}

fn as_state<const WORDS: usize>(words: &[u32; WORDS]) -> [u32; WORDS] {
    let mut state = words.map(canonical);
    state[HIGH] = u32::from(words[HIGH] != 0);
    state
}

/// What the ported Rust's state is after an answered call, and after a refused one.
fn original(record: &Record, number: u32) -> [u32; STATE_WORDS] {
    let mut state = VariableShapeOscillator::from_words(&record.state);
    if number == 0 {
        state.set_master_phase(f32::from_bits(record.given));
    }
    let words = state.to_words();
    as_state(&std::array::from_fn(|i| words[i]))
}

fn hexadecimal(words: &[u32]) -> String {
    words.iter().map(|word| format!(" {word:08x}")).collect()
}

#[cfg(test)]
mod tests {
    use super::*;

    fn fields(state: [u32; STATE_WORDS], given: u32) -> Vec<String> {
        let line = line(&Record { state, given });
        line.split(' ').map(str::to_string).collect()
    }

    fn forms(state: [u32; STATE_WORDS], phase: u32) -> [Vec<String>; 3] {
        let fields = fields(state, phase);
        let form = |i: usize| fields[11 * i..11 * (i + 1)].to_vec();
        assert_eq!(fields.len(), 53);
        [form(0), form(1), form(2)]
    }

    fn inits(state: [u32; STATE_WORDS], rate: u32) -> [Vec<String>; 2] {
        let fields = fields(state, rate);
        [fields[33..43].to_vec(), fields[43..].to_vec()]
    }

    #[test]
    fn starting_states_are_the_sources() {
        let lines = starting_lines();
        assert_eq!(lines.len(), 18);
        let half_and_hundredth = "3f000000 00000000 00000000 3c23d70a 3f000000";
        assert_eq!(
            lines[1],
            format!("variable shape, init: 00000000 00000000 00000000 {half_and_hundredth} 00000000 00000000")
        );
        assert_eq!(
            lines[9],
            format!("NES triangle, new:{}", " 00000000".repeat(5))
        );
        let thousandth = "00000000 00000000 00000000 00000001 3a83126f";
        assert_eq!(lines[10], format!("NES triangle, init: {thousandth}"));
        let half = "3f000000 00000000 3f800000 00000000 00000001 3a83126f 3f000000";
        assert_eq!(
            lines[16],
            format!("classic, init: {half} 3e800000 40800000")
        );
    }

    #[test]
    fn init_sets_every_field() {
        for start in starting_lines().chunks(3) {
            let words = |line: &str| line.split(':').nth(1).map(str::to_string);
            assert_eq!(words(&start[1]), words(&start[2]));
            assert_ne!(words(&start[0]), words(&start[1]));
        }
    }

    #[test]
    fn a_phase_from_0_to_below_1_is_stored_bit_by_bit() {
        for phase in [0, 0x8000_0000, 1, 0x3f00_0000, 0x3f7f_ffff] {
            for form in forms([0x3e80_0000; STATE_WORDS], phase) {
                assert_eq!(form[..2], ["0".to_string(), format!("{phase:08x}")]);
                assert_eq!(form[2], "3e800000");
            }
        }
    }

    #[test]
    fn any_other_phase_is_answered_4_and_changes_nothing() {
        for phase in [
            0x3f80_0000,
            0x8000_0001,
            0x7f80_0000,
            0xff80_0000,
            0x7fc0_0000,
            0xff80_0001,
        ] {
            for form in forms([0x3e80_0000; STATE_WORDS], phase) {
                assert_eq!(form[..2], ["4", "3e800000"]);
            }
        }
    }

    #[test]
    fn words_keep_their_bits_and_a_state_of_floats_has_one_nan() {
        for (phase, number) in [(0x3f00_0000, "0"), (0x3f80_0000, "4")] {
            let [exported, by_value, lent] = forms([0xff80_0001; STATE_WORDS], phase);
            assert_eq!(exported[0], number);
            assert!(exported[2..].iter().all(|word| word == "ff800001"));
            assert_eq!(
                (by_value[2].as_str(), by_value[5].as_str()),
                ("7fc00000", "00000001")
            );
            assert_eq!(by_value, lent);
        }
    }

    #[test]
    fn a_rate_from_8000_to_384000_starts_the_classic_and_any_other_changes_nothing() {
        for rate in [8_000.0f32, 44_100.0, 48_000.0, 384_000.0] {
            let [exported, by_value] = inits([0xff80_0001; STATE_WORDS], rate.to_bits());
            assert_eq!(exported, by_value);
            assert_eq!(exported[..2], ["0", "3f000000"]);
            let coefficient = 12_000.0 / rate;
            assert_eq!(exported[8], format!("{:08x}", coefficient.to_bits()));
            assert_eq!(
                exported[9],
                format!("{:08x}", (1.0 / coefficient).to_bits())
            );
        }
        let outside = [
            8_000.0f32.next_down(),
            384_000.0f32.next_up(),
            f32::INFINITY,
        ];
        for rate in [&outside[..], &[f32::NAN, -48_000.0, 0.0]].concat() {
            let [exported, by_value] = inits([0xff80_0001; STATE_WORDS], rate.to_bits());
            assert_eq!(exported[0], "4");
            assert!(exported[1..].iter().all(|word| word == "ff800001"));
            let nans = [
                "4", "7fc00000", "7fc00000", "7fc00000", "7fc00000", "00000001",
            ];
            assert_eq!(by_value[..6], nans);
        }
    }

    #[test]
    fn the_text_has_a_line_for_each_record() {
        assert_eq!(text(&[0; 2 * RECORD_BYTES]).lines().count(), 20);
        assert_eq!(text(b"").lines().count(), 18);
    }
}

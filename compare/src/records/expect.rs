//! The text that `crates/records` has to print, from the call that the second implementation makes of
//! a job record.

use crate::calls::canonical;
use crate::calls::record::*;
use crate::lists::job::{call, length, registration, JOB_BYTES};

/// The kind that is printed for a malformed record.
const NO_KIND: u8 = 0;

/// A line for each record, and for the rest where there is one.
pub fn text(input: &[u8]) -> String {
    let line = |part: &[u8]| line(part) + "\n";
    input.chunks(JOB_BYTES).map(line).collect()
}

/// Kind, block length, the kind's settings in the order in which `jobs` declares them, registration.
pub fn line(part: &[u8]) -> String {
    match call(part) {
        Some(call) => {
            let registration = call.registration().map(f32::to_bits);
            let words = [settings(&call), registration.to_vec()].concat();
            fields(call.kind(), call.length(), &words)
        }
        None => fields(NO_KIND, length(part).into(), &registration(part)),
    }
}

fn settings(call: &Record) -> Vec<u32> {
    let words = |places: &[usize]| places.iter().map(|&at| call.word(at)).collect();
    match call.kind() {
        SHAPE => {
            let floats: Vec<u32> = words(&[
                FREQUENCY_AT,
                MASTER_OR_GAIN_AT,
                WIDTH_OR_SHAPE_AT,
                WAVESHAPE_AT,
                PHASE_MODULATION_AT,
            ]);
            let flags = [call.sync(), call.phase_output()].map(u32::from);
            [floats, flags.to_vec()].concat()
        }
        SAW => words(&[FREQUENCY_AT, WIDTH_OR_SHAPE_AT, WAVESHAPE_AT]),
        SUPER_SQUARE => words(&[FREQUENCY_AT, WIDTH_OR_SHAPE_AT]),
        NES => words(&[FREQUENCY_AT, BITS_AT]),
        CLASSIC => {
            let floats: Vec<u32> = words(&[FREQUENCY_AT, WIDTH_OR_SHAPE_AT]);
            [floats, vec![call.shape().into()]].concat()
        }
        _ => words(&[FREQUENCY_AT, MASTER_OR_GAIN_AT]),
    }
}

fn fields(kind: u8, length: usize, words: &[u32]) -> String {
    let words = words
        .iter()
        .map(|&word| format!(" {:08x}", canonical(word)));
    format!("{kind} {length}{}", words.collect::<String>())
}

#[cfg(test)]
mod tests {
    use super::*;
    use crate::lists::make::damage::{set_length, set_word};

    /// A record of these words, by their places.
    fn record(kind: u8, length: u16, words: &[(usize, u32)]) -> Vec<u8> {
        let mut job = [0; JOB_BYTES];
        job[0] = kind;
        set_length(&mut job, length);
        for &(at, word) in words {
            set_word(&mut job, at, word);
        }
        job.to_vec()
    }

    const NO_REGISTRATION: &str = " 00000000 00000000 00000000 00000000 00000000 00000000 00000000";

    #[test]
    fn each_kind_has_its_settings_in_their_order() {
        let places = [8, 12, 16, 20, 24];
        let words: Vec<(usize, u32)> = places.iter().map(|&at| (at, at as u32)).collect();
        let mut shape = record(SHAPE, 7, &words);
        shape[1] = 2;
        let settings = "00000008 0000000c 00000010 00000014 00000018 00000000 00000001";
        assert_eq!(line(&shape), format!("1 7 {settings}{NO_REGISTRATION}"));
        for (kind, words, settings) in [
            (
                SAW,
                vec![(8, 1), (16, 2), (20, 3)],
                "00000001 00000002 00000003",
            ),
            (SUPER_SQUARE, vec![(8, 1), (16, 2)], "00000001 00000002"),
            (NES, vec![(8, 1), (4, 1024)], "00000001 0000000a"),
            (STRING, vec![(8, 1), (12, 2)], "00000001 00000002"),
            (CLASSIC, vec![(8, 1), (16, 2)], "00000001 00000002 00000000"),
        ] {
            let expected = format!("{kind} 65535 {settings}{NO_REGISTRATION}");
            assert_eq!(line(&record(kind, 65_535, &words)), expected);
        }
        let mut classic = record(CLASSIC, 1, &[]);
        classic[1] = 7;
        let settings = "00000000 00000000 00000007";
        assert_eq!(line(&classic), format!("6 1 {settings}{NO_REGISTRATION}"));
    }

    #[test]
    fn the_registration_stands_in_every_line() {
        let entries: Vec<(usize, u32)> = (0..7).map(|i| (28 + 4 * i, i as u32 + 1)).collect();
        let shown: String = (1..=7).map(|word| format!(" {word:08x}")).collect();
        let string = line(&record(STRING, 0, &entries));
        assert_eq!(string, format!("5 0 00000000 00000000{shown}"));
        // No other kind uses these bytes, so such a record is malformed.
        for kind in [0, SHAPE, SAW, SUPER_SQUARE, NES, CLASSIC, 7] {
            assert_eq!(line(&record(kind, 10, &entries)), format!("0 10{shown}"));
        }
    }

    #[test]
    fn every_nan_is_the_one() {
        for word in [0x7fc0_0000, 0xffff_ffff, 0x7f80_0001, 0xff80_0001] {
            let line = line(&record(STRING, 1, &[(8, word), (52, word)]));
            assert!(line.starts_with("5 1 7fc00000 00000000") && line.ends_with(" 7fc00000"));
        }
        let infinite = line(&record(SUPER_SQUARE, 1, &[(16, 0xff80_0000)]));
        assert!(infinite.starts_with("3 1 00000000 ff800000"));
    }

    #[test]
    fn a_rest_is_malformed_and_an_empty_input_has_no_line() {
        let whole = record(STRING, 0x0201, &[(28, 0x3f80_0000), (32, 0x4080_0000)]);
        let rest = [&whole[..], &whole[..35]].concat();
        let text = text(&rest);
        let lines: Vec<&str> = text.lines().collect();
        assert_eq!(lines.len(), 2);
        assert!(lines[0].starts_with("5 513 "));
        assert!(lines[1].starts_with("0 513 3f800000 00800000 00000000"));
        assert_eq!(super::text(b""), "");
    }
}

//! A second implementation of `write`, from the request's words: what it answers, and what it leaves
//! in the lent bytes.

use super::number::number;
use super::stem::{stem, HEADER_BYTES};

const LEAST_RATE: u32 = 1;
const MOST_RATE: u32 = 384_000;
pub const MOST_SAMPLES: usize = 1_048_576;

pub const DONE: u32 = 0;
pub const BAD_PARAM: u32 = 4;
pub const NO_ROOM: u32 = 9;

/// The answer's number. The stem goes to the front of `out`; a refusal writes nothing. Samples are
/// given by their bits.
pub fn write(rate: u32, samples: &[u32], out: &mut [u8]) -> u32 {
    let numbers = numbers(samples);
    let is_fit = rate_in(rate) && samples.len() <= MOST_SAMPLES && numbers.is_some();
    let has_room = out.len() >= HEADER_BYTES + 2 * samples.len();
    let refusals = [(BAD_PARAM, !is_fit), (NO_ROOM, !has_room)];
    if let Some((answer, _)) = refusals.into_iter().find(|(_, applies)| *applies) {
        return answer;
    }
    put(&stem(rate, &numbers.unwrap_or_default()), out);
    DONE
}

fn rate_in(rate: u32) -> bool {
    (LEAST_RATE..=MOST_RATE).contains(&rate)
}

/// Nothing where a sample is a NaN.
fn numbers(samples: &[u32]) -> Option<Vec<i64>> {
    samples.iter().map(|&sample| number(sample)).collect()
}

/// What lies past the stem stays.
fn put(stem: &[u8], out: &mut [u8]) {
    out[..stem.len()].copy_from_slice(stem);
}

#[cfg(test)]
mod tests {
    use super::*;

    const NAN: u32 = 0x7fc0_0000;
    const LENT: u8 = 165;

    fn wrote(rate: u32, samples: &[u32], lent: usize) -> (u32, Vec<u8>) {
        let mut out = vec![LENT; lent];
        (write(rate, samples, &mut out), out)
    }

    #[test]
    fn a_refusal_writes_nothing_and_4_comes_before_9() {
        let half = 0.5f32.to_bits();
        for (rate, samples, lent, answer) in [
            (0, vec![half; 3], 50, BAD_PARAM),
            (384_001, vec![half; 3], 50, BAD_PARAM),
            (u32::MAX, vec![half; 3], 50, BAD_PARAM),
            (48_000, vec![half, NAN, half], 50, BAD_PARAM),
            (48_000, vec![half; 3], 49, NO_ROOM),
            (48_000, vec![half; 3], 0, NO_ROOM),
            (48_000, vec![], 43, NO_ROOM),
            (0, vec![half; 3], 49, BAD_PARAM),
            (48_000, vec![half, half, NAN], 0, BAD_PARAM),
            (48_000, vec![half; MOST_SAMPLES + 1], 44, BAD_PARAM),
            (48_000, vec![half; MOST_SAMPLES], 44, NO_ROOM),
        ] {
            let told = format!("{rate}, {} samples, {lent} bytes", samples.len());
            assert_eq!(
                wrote(rate, &samples, lent),
                (answer, vec![LENT; lent]),
                "{told}"
            );
        }
    }

    #[test]
    fn bytes_past_the_stem_stay() {
        for rate in [1, 384_000] {
            for lent in 44..50 {
                let (answer, out) = wrote(rate, &[], lent);
                assert_eq!(answer, DONE);
                assert_eq!(out[..44], stem(rate, &[]));
                assert_eq!(out[44..], vec![LENT; lent - 44]);
            }
        }
        let (answer, out) = wrote(44_100, &[0x3f80_0000, 0xff80_0000], 50);
        assert_eq!(
            (answer, &out[44..]),
            (DONE, &[255, 127, 1, 128, LENT, LENT][..])
        );
    }

    #[test]
    fn the_most_samples_are_written() {
        let samples = vec![0xbf80_0000; MOST_SAMPLES];
        let (answer, out) = wrote(384_000, &samples, 44 + 2 * MOST_SAMPLES);
        assert_eq!((answer, out.len()), (DONE, 2_097_196));
        assert_eq!(out[..44], stem(384_000, &vec![0; MOST_SAMPLES])[..44]);
        assert!(out[44..].chunks(2).all(|bytes| bytes == [1, 128]));
    }
}

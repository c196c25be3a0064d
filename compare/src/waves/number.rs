//! A sample's number, in whole numbers throughout: its exact value, clipped to -1 and 1, times
//! 32,767, to the nearest whole number, ties to even.

use super::whole::Whole;
use std::cmp::Ordering;

/// A unit is 2^-149, of which every finite float is a whole number.
const PLACES: u32 = 149;
const SCALE: u64 = 32_767;

const SIGN: u32 = 0x8000_0000;
const INFINITE: u32 = 0x7f80_0000;
const FRACTION_BITS: u32 = 23;

/// The number of a sample, given by its bits; nothing for a NaN, which has no value.
pub fn number(sample: u32) -> Option<i64> {
    let size = nearest(clipped(sample & !SIGN)?.times(SCALE));
    let is_negative = sample & SIGN != 0;
    Some(if is_negative { -size } else { size })
}

/// How many units a float without its sign is away from 0, where 1 is the most.
fn clipped(size: u32) -> Option<Whole> {
    let one = Whole::new(1, PLACES);
    match size.cmp(&INFINITE) {
        Ordering::Less => Some(units(size).min(one)),
        Ordering::Equal => Some(one),
        Ordering::Greater => None,
    }
}

/// The exact value of a finite float without its sign. A field of 0 has the same unit as 1, and no
/// digit before its fraction.
fn units(size: u32) -> Whole {
    let field = size >> FRACTION_BITS;
    let fraction = u64::from(size % (1 << FRACTION_BITS));
    match field {
        0 => Whole::new(fraction, 0),
        _ => Whole::new((1 << FRACTION_BITS) + fraction, field - 1),
    }
}

/// The nearest whole number of what is given in units, ties to even.
fn nearest(units: Whole) -> i64 {
    let (below, rest) = units.parts(PLACES);
    let nearest = match rest.cmp(&Whole::new(1, PLACES - 1)) {
        Ordering::Less => below,
        Ordering::Equal => below + below % 2,
        Ordering::Greater => below + 1,
    };
    nearest as i64
}

#[cfg(test)]
mod tests {
    use super::*;
    use crate::random::Random;

    fn of(sample: f32) -> i64 {
        number(sample.to_bits()).unwrap()
    }

    #[test]
    fn the_ends_and_what_lies_beyond_them() {
        for end in [1.0, 1f32.next_up(), 2.0, 1e10, f32::MAX, f32::INFINITY] {
            assert_eq!((of(end), of(-end)), (32_767, -32_767), "{end}");
        }
        for zero in [0.0, f32::from_bits(1), f32::MIN_POSITIVE, 1.0 / 65_536.0] {
            assert_eq!((of(zero), of(-zero)), (0, 0), "{zero}");
        }
        assert_eq!(of(1f32.next_down()), 32_767);
    }

    #[test]
    fn no_nan_has_a_number() {
        for nan in [0x7f80_0001, 0x7fc0_0000, 0x7fff_ffff, 0xff80_0001, u32::MAX] {
            assert_eq!(number(nan), None, "{nan:08x}");
        }
    }

    #[test]
    fn half_is_a_tie_which_goes_to_the_even_number() {
        assert_eq!((of(0.5), of(-0.5)), (16_384, -16_384));
        assert_eq!(
            (of(0.5f32.next_down()), of(0.5f32.next_up())),
            (16_383, 16_384)
        );
    }

    /// A double has 53 digits, and the product has 39 at most: so it is exact, and so is rounding it.
    #[test]
    fn a_product_of_doubles_is_exact_and_rounds_to_the_same_number() {
        let mut random = Random::new(1);
        let mut numbers = std::collections::BTreeSet::new();
        for _ in 0..1_000_000 {
            let sample = match random.below(3) {
                0 => f32::from_bits(random.bits()),
                1 => random.between(-1.0, 1.0),
                _ => random.small(1.25, 40),
            };
            if !sample.is_nan() {
                let exact = f64::from(sample).clamp(-1.0, 1.0) * 32_767.0;
                assert_eq!(of(sample), exact.round_ties_even() as i64, "{sample:e}");
                numbers.insert(of(sample));
            }
        }
        assert!(numbers.len() > 60_000, "{} numbers", numbers.len());
    }
}

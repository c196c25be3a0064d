//! Whole numbers that are large enough for the exact value of every float: in units of 2^-149 the
//! largest float has 277 bits.

const LIMBS: usize = 5;
const LIMB_BITS: u32 = 64;

/// A whole number below 2^320, its highest 64 bits first: so they are ordered as numbers are.
#[derive(Clone, Copy, Debug, PartialEq, Eq, PartialOrd, Ord)]
pub struct Whole([u64; LIMBS]);

impl Whole {
    /// `number` times 2^`places`, which is below 2^320.
    pub fn new(number: u64, places: u32) -> Self {
        let wide = u128::from(number) << (places % LIMB_BITS);
        let lowest = LIMBS - 1 - (places / LIMB_BITS) as usize;
        let mut limbs = [0; LIMBS];
        limbs[lowest] = wide as u64;
        if lowest > 0 {
            limbs[lowest - 1] = (wide >> LIMB_BITS) as u64;
        }
        Whole(limbs)
    }

    /// The product, which is below 2^320.
    pub fn times(self, factor: u64) -> Self {
        let mut limbs = self.0;
        let mut carried = 0;
        for limb in limbs.iter_mut().rev() {
            let wide = u128::from(*limb) * u128::from(factor) + carried;
            *limb = wide as u64;
            carried = wide >> LIMB_BITS;
        }
        Whole(limbs)
    }

    /// How many times 2^`places` goes into it, of which the lowest 64 bits are given, and the rest.
    pub fn parts(self, places: u32) -> (u64, Whole) {
        let bits = places % LIMB_BITS;
        let at = LIMBS - 1 - (places / LIMB_BITS) as usize;
        let above = if at > 0 { self.0[at - 1] } else { 0 };
        let wide = u128::from(above) << LIMB_BITS | u128::from(self.0[at]);
        let mut rest = self.0;
        rest[..at].fill(0);
        rest[at] &= (1 << bits) - 1;
        ((wide >> bits) as u64, Whole(rest))
    }
}

#[cfg(test)]
mod tests {
    use super::Whole;

    #[test]
    fn a_number_times_a_power_of_two_comes_back() {
        for number in [0, 1, 5, 0xff_ffff, u64::MAX] {
            for places in 0..=256 {
                let whole = Whole::new(number, places);
                assert_eq!(whole.parts(places), (number, Whole::new(0, 0)));
            }
        }
    }

    #[test]
    fn numbers_are_ordered_across_limbs() {
        let powers: Vec<Whole> = (0..319).map(|places| Whole::new(1, places)).collect();
        assert!(powers.is_sorted());
        assert!(Whole::new(3, 62) > Whole::new(1, 63));
        assert!(Whole::new(3, 62) < Whole::new(1, 64));
    }

    #[test]
    fn a_product_and_its_parts_are_those_of_smaller_numbers() {
        for (number, factor) in [(0xff_ffff_ffff, 32_767), (u64::MAX, u64::MAX), (7, 0)] {
            let product = u128::from(number) * u128::from(factor);
            for places in 0..128 {
                let (quotient, rest) = Whole::new(number, 0).times(factor).parts(places);
                assert_eq!(quotient, (product >> places) as u64);
                let expected = product & ((1 << places) - 1);
                assert_eq!(rest.parts(0).0, expected as u64);
                assert_eq!(rest.parts(64).0, (expected >> 64) as u64);
            }
        }
    }

    #[test]
    fn a_carry_goes_through_all_limbs() {
        let ones = Whole([0, u64::MAX, u64::MAX, u64::MAX, u64::MAX]);
        assert_eq!(ones.times(2).parts(1), (u64::MAX, Whole::new(0, 0)));
        assert_eq!(ones.times(2).parts(256).0, 1);
        assert_eq!(Whole::new(3, 255).times(2), Whole::new(3, 256));
    }
}

//! The boundaries between two numbers, by long division: for each number the least float above it.
//! It knows nothing of `number`, so that each can be held against the other.

/// How many boundaries there are on either side of 0.
pub const COUNT: u32 = 32_767;

/// Twice the scale: the boundary above number `k` is (2 k + 1) / 65,534.
const UNDER: u64 = 65_534;
const FRACTION_BITS: u32 = 23;
/// A float of 24 digits, s of them behind the point, has the field 150 - s, and its first digit is
/// not stored: it counts one field more.
const FIELD: u32 = 149;

/// The bits of the least float whose number is above `k`, which is below 32,767. One that lies on
/// the boundary goes to the even number.
pub fn above(k: u32) -> u32 {
    let over = 2 * u64::from(k) + 1;
    let least = UNDER << FRACTION_BITS;
    let behind = (least.div_ceil(over)).next_power_of_two().ilog2();
    let (digits, rest) = ((over << behind) / UNDER, (over << behind) % UNDER);
    let is_below = rest > 0 || k.is_multiple_of(2);
    ((FIELD - behind) << FRACTION_BITS) + digits as u32 + u32::from(is_below)
}

/// The floats on both sides of the boundary above `k`, of both signs.
pub fn beside(k: u32) -> [u32; 4] {
    let (over, under) = (above(k), above(k) - 1);
    [under, over, 0x8000_0000 | under, 0x8000_0000 | over]
}

/// All of them, as little-endian words.
pub fn table() -> Vec<u8> {
    (0..COUNT).flat_map(|k| above(k).to_le_bytes()).collect()
}

#[cfg(test)]
mod tests {
    use super::super::number::number;
    use super::*;

    #[test]
    fn on_each_side_lies_the_number_of_that_side() {
        for k in 0..COUNT {
            let [low, high] = [i64::from(k), i64::from(k) + 1];
            let expected = [low, high, -low, -high].map(Some);
            assert_eq!(beside(k).map(number), expected, "{k}");
        }
    }

    /// The number of each float is how many boundaries lie at or below it.
    #[test]
    fn between_two_boundaries_no_number_changes() {
        let table: Vec<u32> = (0..COUNT).map(above).collect();
        assert!(table.is_sorted());
        for bits in (0..=0x7f80_0000).step_by(1009) {
            let count = table.partition_point(|&least| least <= bits);
            assert_eq!(number(bits), Some(count as i64), "{bits:08x}");
        }
        assert_eq!(number(0x7f80_0000), Some(i64::from(COUNT)));
    }

    #[test]
    fn the_only_tie_is_half() {
        let twice = |k: u32| f64::from(f32::from_bits(above(k))) * 65_534.0;
        let ties: Vec<u32> = (0..COUNT)
            .filter(|&k| twice(k) == f64::from(2 * k + 1))
            .collect();
        assert_eq!(ties, [16_383]);
        assert_eq!(above(16_383), 0.5f32.to_bits());
    }

    #[test]
    fn the_table_has_four_bytes_for_each() {
        let table = table();
        assert_eq!(table.len(), 4 * 32_767);
        assert_eq!(table[4 * 16_383..][..4], [0, 0, 0, 0x3f]);
    }
}

//! Records for the leaves: first fixed ones (every figure, and values at which a float can go
//! wrong, combined), then random ones.

use crate::random::Random;

/// Block lengths for the interpolator, the ends of what 16 bits hold among them.
const SIZES: [u32; 12] = [0, 1, 2, 3, 4, 63, 64, 65, 4095, 4096, 4097, 65_535];

/// Quiet and signalling NaN of both signs, with the smallest and the largest payloads.
const NANS: [u32; 8] = [
    0x7fc0_0000,
    0xffc0_0000,
    0x7f80_0001,
    0xff80_0001,
    0x7fbf_ffff,
    0x7fff_ffff,
    0xffff_ffff,
    0xffa0_0000,
];

/// Zeros, infinities, and both ends of the subnormal and of the normal numbers.
const EDGES: [u32; 12] = [
    0x0000_0000,
    0x8000_0000,
    0x7f80_0000,
    0xff80_0000,
    0x0000_0001,
    0x8000_0001,
    0x007f_ffff,
    0x807f_ffff,
    0x0080_0000,
    0x8080_0000,
    0x7f7f_ffff,
    0xff7f_ffff,
];

/// Numbers at which the figures, the oscillators and the leaves turn, tried with their neighbours.
const TURNS: [f32; 7] = [0.0, 0.25, 0.5, 1.0, 2.0, 8.0, 131_072.0];

const OTHERS: [f32; 3] = [7.96875, -0.5, -1.0];

/// The fixed records, cut or followed by random ones so that there are `count`.
pub fn records(count: usize, seed: u64) -> Vec<[u32; 3]> {
    let mut records = figures();
    records.extend(pairs());
    records.extend(powers_of_two());
    records.truncate(count);
    let mut random = Random::new(seed);
    while records.len() < count {
        records.push(random_record(&mut random));
    }
    records
}

/// P1 to P5. A line has only the first two steps, so P4's last two are asked for from its second.
fn figures() -> Vec<[u32; 3]> {
    let mut figures: Vec<[u32; 3]> = [0.0f32, 0.5, 1.0, 7.96875, 8.0]
        .map(|x| [x.to_bits(), 0, 1])
        .to_vec();
    figures.push([0.0f32.to_bits(), 0.25f32.to_bits(), 4]);
    figures.push([0.125f32.to_bits(), 0.25f32.to_bits(), 2]);
    figures
}

/// A number with the floats just below and just above it.
fn with_neighbours(x: f32) -> [u32; 3] {
    [x.next_down(), x, x.next_up()].map(f32::to_bits)
}

/// The values that are tried in every pair.
pub fn special_values() -> Vec<u32> {
    let mut values = Vec::new();
    values.extend(NANS);
    values.extend(EDGES);
    values.extend(TURNS.into_iter().flat_map(with_neighbours));
    values.extend(OTHERS.map(f32::to_bits));
    values.sort_unstable();
    values.dedup();
    values
}

/// Every pair of special values as x and y. The strides are prime, so that z goes through the
/// special values and the sizes in another order for each x.
fn pairs() -> Vec<[u32; 3]> {
    let values = special_values();
    let thirds = [values.as_slice(), &SIZES].concat();
    let mut pairs = Vec::new();
    for (i, &x) in values.iter().enumerate() {
        for (j, &y) in values.iter().enumerate() {
            pairs.push([x, y, thirds[(i * 17 + j * 7) % thirds.len()]]);
        }
    }
    pairs
}

/// Every power of two with its neighbours as x, against one of another size and either sign.
fn powers_of_two() -> Vec<[u32; 3]> {
    let subnormal = (0..23).map(|place| 1u32 << place);
    let normal = (1..255).map(|exponent| exponent << 23);
    let powers: Vec<u32> = subnormal.chain(normal).collect();
    let mut records = Vec::new();
    for (i, &power) in powers.iter().enumerate() {
        let other = powers[(i * 101 + 5) % powers.len()] | ((i as u32 % 2) << 31);
        for x in with_neighbours(f32::from_bits(power)) {
            records.push([x, other, SIZES[records.len() % SIZES.len()]]);
        }
    }
    records
}

fn random_record(random: &mut Random) -> [u32; 3] {
    let musical = |random: &mut Random| random.between(0.0, 2.0).to_bits();
    match random.below(5) {
        0 => [random.bits(), random.bits(), random.bits()],
        1 => [musical(random), musical(random), musical(random)],
        2 => [musical(random), musical(random), random.below(4097)],
        3 => whole_part_record(random),
        _ => close_record(random),
    }
}

/// A number in and just around the whole part's range, large or close to a whole number.
fn whole_part_record(random: &mut Random) -> [u32; 3] {
    let x = if random.one_in(2) {
        random.between(-1.0, 131_074.0)
    } else {
        let whole = random.below(131_074) as f32;
        random.pick(&[whole.next_down(), whole, whole.next_up()])
    };
    [x.to_bits(), random.small(1.0, 30).to_bits(), random.bits()]
}

/// Three floats a few steps apart, so that ties and near ties of the comparisons come up.
fn close_record(random: &mut Random) -> [u32; 3] {
    let base = random.bits();
    [0; 3].map(|_| base.wrapping_add(random.below(3)))
}

#[cfg(test)]
mod tests {
    use super::*;

    #[test]
    fn fixed_records_leave_room_for_random_ones_in_the_recorded_file() {
        let fixed = figures().len() + pairs().len() + powers_of_two().len();
        assert!((2000..2800).contains(&fixed), "{fixed} fixed records");
        assert_eq!(records(3000, 1).len(), 3000);
        assert_eq!(records(10, 1).len(), 10);
    }

    #[test]
    fn each_power_of_two_is_there_with_its_neighbours() {
        assert_eq!(powers_of_two().len(), 277 * 3);
    }
}

//! The line that the ported Rust gives for a record of the leaves: twelve fields, each eight
//! hexadecimal digits, or `nan`.

use super::answers;
use crate::utils::parameter_interpolator::ParameterInterpolator;
use crate::utils::polyblep::{
    next_blep_sample, next_integrated_blep_sample, this_blep_sample, this_integrated_blep_sample,
};

pub fn line(words: [u32; 3]) -> String {
    let [x, y, z] = words.map(f32::from_bits);
    let [increment, first, second] = interpolated(x, y, (words[2] % 65_536) as usize);
    [
        float(this_blep_sample(x)),
        float(next_blep_sample(x)),
        float(this_integrated_blep_sample(x)),
        float(next_integrated_blep_sample(x)),
        format!("{:08x}", answers::whole_part(x)),
        float(answers::min(x, y)),
        float(answers::max(x, y)),
        float(answers::clamp(x, y, z)),
        float(x.abs()),
        float(increment),
        float(first),
        float(second),
    ]
    .join(" ")
}

/// The increment from `value` to `new_value` over `size` samples, and the first two steps.
fn interpolated(mut value: f32, new_value: f32, size: usize) -> [f32; 3] {
    let mut interpolator = ParameterInterpolator::new(&mut value, new_value, size);
    let increment = interpolator.increment();
    let first = interpolator.next();
    [increment, first, interpolator.next()]
}

fn float(x: f32) -> String {
    if x.is_nan() {
        "nan".to_string()
    } else {
        format!("{:08x}", x.to_bits())
    }
}

#[cfg(test)]
mod tests {
    use super::line;

    fn fields(x: f32, y: f32, z: u32) -> Vec<String> {
        let line = line([x.to_bits(), y.to_bits(), z]);
        line.split(' ').map(str::to_string).collect()
    }

    fn hex(x: f32) -> String {
        format!("{:08x}", x.to_bits())
    }

    #[test]
    fn figures_p1_to_p3() {
        let rows = [
            (0.0, 0.0, -0.5, 0.1875),
            (0.5, 0.125, -0.125, 0.02734375),
            (1.0, 0.5, -0.0, 0.0),
        ];
        for (x, this_blep, next_blep, next_integrated) in rows {
            let got = fields(x, 0.0, 1);
            assert_eq!(got[0], hex(this_blep));
            assert_eq!(got[1], hex(next_blep));
            assert_eq!(got[3], hex(next_integrated));
        }
    }

    #[test]
    fn figures_p4_and_p5() {
        let steps = [0.0625, 0.0625, 0.125].map(hex);
        assert_eq!(fields(0.0, 0.25, 4)[9..], steps);
        assert_eq!(fields(0.125, 0.25, 2)[9..], [0.0625, 0.1875, 0.25].map(hex));
        assert_eq!(fields(7.96875, 0.0, 1)[4], "00000007");
        assert_eq!(fields(8.0, 0.0, 1)[4], "00000008");
    }

    #[test]
    fn a_nan_is_printed_as_a_word_and_a_size_of_0_divides() {
        let got = fields(f32::NAN, 1.0, 0);
        assert_eq!((got[0].as_str(), got[4].as_str()), ("nan", "00000000"));
        assert_eq!(fields(0.0, 1.0, 65_536)[9], hex(f32::INFINITY));
        assert_eq!(fields(1.0, 1.0, 0)[9], "nan");
    }
}

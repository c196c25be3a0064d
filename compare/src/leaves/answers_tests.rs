//! Each decision agrees with Rust's own function wherever Rust says what that gives, and is what
//! the README says where Rust does not.

use super::*;
use crate::leaves::make::special_values;
use crate::random::Random;

fn same(a: f32, b: f32) -> bool {
    a.to_bits() == b.to_bits() || (a.is_nan() && b.is_nan())
}

/// Calls `test` on all special values as x, y and z, then on random patterns.
fn on_many(test: impl Fn(f32, f32, f32)) {
    let special: Vec<f32> = special_values().into_iter().map(f32::from_bits).collect();
    for &x in &special {
        for &y in &special {
            for &z in &special {
                test(x, y, z);
            }
        }
    }
    let mut random = Random::new(1);
    let mut any = || f32::from_bits(random.bits());
    for _ in 0..200_000 {
        test(any(), any(), any());
    }
}

#[test]
fn min_and_max_agree_wherever_rust_is_the_same_everywhere() {
    on_many(|x, y, _| {
        if !left_open(x, y) {
            assert!(same(decided_min(x, y), f32::min(x, y)), "min {x:e} {y:e}");
            assert!(same(decided_max(x, y), f32::max(x, y)), "max {x:e} {y:e}");
        }
    });
}

#[test]
fn clamp_agrees_where_the_bounds_are_in_order() {
    on_many(|x, low, high| {
        if low <= high {
            let (decided, rust) = (decided_clamp(x, low, high), x.clamp(low, high));
            assert!(same(decided, rust), "clamp {x:e} {low:e} {high:e}");
        }
    });
}

#[test]
fn whole_part_agrees_from_0_to_its_end() {
    on_many(|x, _, _| {
        if (0.0..=WHOLE_PART_END).contains(&x) {
            assert_eq!(decided_whole_part(x), x as i32, "whole part of {x:e}");
        }
    });
}

#[test]
fn zeros_of_both_signs_give_the_second() {
    for (x, y) in [(0.0f32, -0.0f32), (-0.0, 0.0)] {
        assert_eq!(min(x, y).to_bits(), y.to_bits());
        assert_eq!(max(x, y).to_bits(), y.to_bits());
    }
}

#[test]
fn a_nan_gives_way_and_two_stay_one() {
    for nan in [0x7fc0_0000, 0xff80_0001].map(f32::from_bits) {
        assert_eq!((min(nan, 2.0), min(2.0, nan)), (2.0, 2.0));
        assert_eq!((max(nan, 2.0), max(2.0, nan)), (2.0, 2.0));
        assert!(min(nan, nan).is_nan() && max(nan, nan).is_nan());
        assert!(clamp(nan, 0.0, 1.0).is_nan());
        assert_eq!((clamp(2.0, nan, 1.0), clamp(-2.0, nan, 1.0)), (1.0, -2.0));
        assert_eq!((clamp(2.0, 0.0, nan), clamp(-2.0, 0.0, nan)), (2.0, 0.0));
        assert_eq!(whole_part(nan), 0);
    }
}

#[test]
fn clamp_with_bounds_out_of_order_is_the_two_tests() {
    assert_eq!(clamp(0.0, 2.0, 1.0), 1.0);
    assert_eq!(clamp(5.0, 2.0, 1.0), 1.0);
    assert_eq!(clamp(1.5, 2.0, 1.0), 1.0);
}

#[test]
fn whole_part_outside_is_the_nearer_end() {
    assert_eq!(whole_part(-0.0), 0);
    assert_eq!(whole_part(-3.5), 0);
    assert_eq!(whole_part(f32::NEG_INFINITY), 0);
    assert_eq!(whole_part(131_072.0), 131_072);
    assert_eq!(whole_part(131_072.02), 131_072);
    assert_eq!(whole_part(f32::INFINITY), 131_072);
}

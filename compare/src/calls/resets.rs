//! How crossings meet resets, and in how many samples they did.

use super::model::{Crossing, Edge, Sample};
use std::fmt;

/// Where a crossing lies beside the reset of its sample.
#[derive(Clone, Copy, Debug, PartialEq)]
pub enum Meets {
    /// t is above the reset time.
    Before,
    /// t is the reset time.
    At,
    /// Late: t is from 0 to below the reset time.
    After,
    /// Late too.
    Negative,
    /// Not late.
    Nan,
    /// The sample has no reset: no crossing is late.
    NoReset,
    NegativeWithoutReset,
}

impl Meets {
    pub fn of(crossing: &Crossing) -> Self {
        let t = crossing.t;
        match crossing.reset_time {
            None if t < 0.0 => Meets::NegativeWithoutReset,
            None => Meets::NoReset,
            Some(_) if t.is_nan() => Meets::Nan,
            Some(_) if t < 0.0 => Meets::Negative,
            Some(time) if t < time => Meets::After,
            Some(time) if t == time => Meets::At,
            Some(_) => Meets::Before,
        }
    }

    fn is_late(self) -> bool {
        matches!(self, Meets::After | Meets::Negative)
    }
}

/// In how many samples a crossing was so.
#[derive(Clone, Copy, Default)]
pub struct Met {
    pub late_rise: usize,
    pub late_fall: usize,
    /// A late rise and a late fall.
    pub both: usize,
    pub at: usize,
    pub negative: usize,
    pub nan: usize,
    pub negative_without_reset: usize,
}

impl Met {
    pub fn add(&mut self, sample: &Sample) {
        let met = |c: &Crossing| (c.edge, Meets::of(c));
        let met: Vec<(Edge, Meets)> = sample.crossings.iter().map(met).collect();
        let late = |edge: Edge| met.iter().any(|m| m.0 == edge && m.1.is_late());
        let any = |meets: Meets| usize::from(met.iter().any(|m| m.1 == meets));
        let (rise, fall) = (late(Edge::Rise), late(Edge::Fall));
        self.late_rise += usize::from(rise);
        self.late_fall += usize::from(fall);
        self.both += usize::from(rise && fall);
        self.at += any(Meets::At);
        self.negative += any(Meets::Negative);
        self.nan += any(Meets::Nan);
        self.negative_without_reset += any(Meets::NegativeWithoutReset);
    }
}

impl fmt::Display for Met {
    fn fmt(&self, to: &mut fmt::Formatter) -> fmt::Result {
        let Met {
            late_rise,
            late_fall,
            both,
            at,
            negative,
            nan,
            negative_without_reset,
        } = self;
        write!(
            to,
            "late rise in {late_rise} samples, late fall in {late_fall}, both in {both}; \
             t at the reset in {at}, negative in {negative}, NaN in {nan}, \
             negative without a reset in {negative_without_reset}"
        )
    }
}

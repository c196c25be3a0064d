//! Rules of what is late that are not the request's, for tests: what is recorded has to tell each of
//! them from it.

use super::model::{Crossing, Edge, Sample};

/// Which crossings are late.
pub type Rule = fn(&Crossing) -> bool;

pub const RULES: [(&str, Rule); 8] = [
    ("none is late", |_| false),
    ("all of a reset are late", |c| c.reset_time.is_some()),
    ("late falls are forgotten", |c| {
        c.is_late() && c.edge == Edge::Rise
    }),
    ("late rises are forgotten", |c| {
        c.is_late() && c.edge == Edge::Fall
    }),
    ("at the reset is late", |c| {
        c.reset_time.is_some_and(|time| c.t <= time)
    }),
    ("NaN is late", |c| {
        c.reset_time.is_some_and(|time| c.t.is_nan() || c.t < time)
    }),
    ("no reset is one at 0", |c| {
        c.t < c.reset_time.unwrap_or(0.0)
    }),
    (NO_NEGATIVE, |c| c.is_late() && c.t >= 0.0),
];

/// No list shows it: none comes to a negative t in a sample with a reset.
pub const NO_NEGATIVE: &str = "a negative t is not late";

/// The rises, the falls and the late ones of these samples, as a line tells them.
pub fn told(samples: &[Sample], is_late: Rule) -> [usize; 3] {
    let crossings = || samples.iter().flat_map(|sample| &sample.crossings);
    let not_late = |edge: Edge| {
        crossings()
            .filter(|c| c.edge == edge && !is_late(c))
            .count()
    };
    let late = crossings().filter(|c| is_late(c)).count();
    [not_late(Edge::Rise), not_late(Edge::Fall), late]
}

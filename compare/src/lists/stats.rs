//! What the lists went through, for a reader to judge what they tried.

use crate::calls::stats::Stats;
use std::fmt;

#[derive(Default)]
pub struct Tried {
    pub lists: usize,
    /// Lists that are refused as a whole.
    pub bad_inputs: usize,
    /// Records that no call is made for.
    pub malformed: usize,
    pub calls: Stats,
}

impl fmt::Display for Tried {
    fn fmt(&self, to: &mut fmt::Formatter) -> fmt::Result {
        self.calls.write_kinds(to)?;
        self.calls.write_met(to)?;
        writeln!(to, "malformed (7): {} records", self.malformed)?;
        writeln!(to, "refused as a whole (8): {} lists", self.bad_inputs)?;
        let records = self.malformed + self.calls.records();
        let samples = self.calls.samples();
        writeln!(
            to,
            "total: {} lists, {records} records, {samples} samples",
            self.lists
        )
    }
}

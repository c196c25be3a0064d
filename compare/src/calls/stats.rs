//! What a list of calls went through, for a reader to judge what it tried.

use super::model::Outcome;
use super::resets::Met;
use super::Kinds;
use std::collections::BTreeSet;
use std::fmt;

#[derive(Clone, Copy, Default)]
struct KindStats {
    answers: [usize; 7],
    samples: usize,
    double_rises: usize,
    nans: usize,
    /// Calls other than `render`, which the answers count too.
    others: usize,
}

/// Counts for each kind, by its number; the indexes that a Drift came with; how crossings met resets;
/// and the records that the line `-` passes over.
#[derive(Default)]
pub struct Stats {
    kinds: [KindStats; Kinds::COUNT as usize + 1],
    drifts: BTreeSet<usize>,
    met: Met,
    passed_over: usize,
}

impl Stats {
    pub fn pass_over(&mut self) {
        self.passed_over += 1;
    }

    pub fn add(&mut self, kind: u8, samples: &[f32], outcome: &Outcome) {
        let stats = &mut self.kinds[usize::from(kind)];
        stats.answers[outcome.answer] += 1;
        stats.double_rises += outcome.double_rises();
        outcome
            .samples
            .iter()
            .for_each(|sample| self.met.add(sample));
        if outcome.answer == 6 {
            self.drifts.insert(outcome.index);
        }
        if outcome.answer == 0 {
            stats.samples += samples.len();
            stats.nans += samples.iter().filter(|sample| sample.is_nan()).count();
        }
    }

    /// A call other than `render`.
    pub fn add_other(&mut self, kind: u8, outcome: &Outcome) {
        let stats = &mut self.kinds[usize::from(kind)];
        stats.answers[outcome.answer] += 1;
        stats.others += 1;
    }

    pub fn records(&self) -> usize {
        self.passed_over + self.kinds.iter().map(KindStats::records).sum::<usize>()
    }

    pub fn samples(&self) -> usize {
        self.kinds.iter().map(|stats| stats.samples).sum()
    }

    /// A line for each kind that came up.
    pub fn write_kinds(&self, to: &mut fmt::Formatter) -> fmt::Result {
        for (kind, stats) in self
            .kinds
            .iter()
            .enumerate()
            .filter(|(_, s)| s.records() > 0)
        {
            write!(to, "kind {kind}: {} records, answers", stats.records())?;
            for (answer, count) in stats.answers.iter().enumerate() {
                write!(to, " {answer}:{count}")?;
            }
            writeln!(
                to,
                ", {} samples, {} with rise, fall and rise, {} NaN, {} calls other than render",
                stats.samples, stats.double_rises, stats.nans, stats.others
            )?;
        }
        Ok(())
    }

    /// A line that says how crossings met resets, where there was a sample to do so.
    pub fn write_met(&self, to: &mut fmt::Formatter) -> fmt::Result {
        match self.samples() {
            0 => Ok(()),
            _ => writeln!(to, "{}", self.met),
        }
    }
}

/// The runs of indexes that did not come up, below the highest that did.
fn gaps(indexes: &BTreeSet<usize>) -> String {
    let mut told = String::new();
    let mut next = 0;
    for &index in indexes {
        if next < index {
            told += &format!(", none at {next} to {}", index - 1);
        }
        next = index + 1;
    }
    told
}

impl KindStats {
    fn records(&self) -> usize {
        self.answers.iter().sum()
    }
}

impl fmt::Display for Stats {
    fn fmt(&self, to: &mut fmt::Formatter) -> fmt::Result {
        self.write_kinds(to)?;
        self.write_met(to)?;
        let (records, samples) = (self.records(), self.samples());
        writeln!(
            to,
            "Drift at {} indexes{}",
            self.drifts.len(),
            gaps(&self.drifts)
        )?;
        writeln!(to, "passed over (-): {} records", self.passed_over)?;
        writeln!(to, "total: {records} records, {samples} samples")
    }
}

//! Random records: chains of calls of each kind, in which a state is the one that an earlier call
//! left, with set-ups made by hand and damaged records between.

use super::fields::{settings, state};
use super::{fixed, others, setups};
use crate::calls::line::{buffer, canonical};
use crate::calls::model;
use crate::calls::original::starting_words;
use crate::calls::record::*;
use crate::calls::Kinds;
use crate::random::Random;

/// For each kind the last record that was answered, with the state that it left.
#[derive(Default)]
pub struct Chains {
    last: [Option<Record>; Kinds::COUNT as usize + 1],
}

impl Chains {
    pub fn next(&mut self, kind: u8, random: &mut Random) -> Record {
        let mut record = self.begin(kind, random);
        record.set_length(length(random));
        match random.below(32) {
            0 => setups::drifting(&mut record, random),
            1..=4 => setups::crossing(&mut record, random),
            5 if kind == CLASSIC => setups::overtaking(&mut record, random),
            5 => setups::dividing_by_zero(&mut record, random),
            6 | 7 => setups::on_a_grid(&mut record, random),
            _ => {}
        }
        if random.one_in(6) {
            damage(&mut record, random);
        }
        let rendering = record;
        if others::has(kind) && random.one_in(16) {
            others::choose(&mut record, random);
        }
        self.keep(record, rendering);
        record
    }

    /// Goes on from the last call, or from a state made by hand, or from the start.
    fn begin(&self, kind: u8, random: &mut Random) -> Record {
        let last = self.last.get(usize::from(kind)).copied().flatten();
        let mut record = match last {
            Some(last) if !random.one_in(16) => last,
            _ => fixed::plain(kind),
        };
        if random.one_in(2) {
            setups::choose_settings(&mut record, random);
        }
        match random.below(16) {
            0 => record.set_state_words(&starting_words(kind, random.one_in(2))),
            1..=6 => setups::choose_state(&mut record, random),
            _ => {}
        }
        record
    }

    /// Makes the call, so that a later record can go on from where it ends, under the settings of
    /// `after`. Each NaN becomes the same one, so that a seed gives the same records on any machine.
    fn keep(&mut self, record: Record, mut after: Record) {
        if record.length() > LONGEST_TRIED {
            return;
        }
        match model::call(&record, &mut buffer(&record)) {
            Some(outcome) if outcome.answer == 0 => {
                let words: Vec<u32> = outcome.words.into_iter().map(canonical).collect();
                after.set_state_words(&words);
                self.last[usize::from(record.kind())] = Some(after);
            }
            _ => {}
        }
    }
}

/// Most blocks are short; the ends of what is answered, and longer ones, are rare.
fn length(random: &mut Random) -> u16 {
    match random.below(128) {
        0 => random.pick(&[8192, 8193, 5000, 65_535]),
        1..=3 => random.pick(&[4095, 4096, 4097]),
        4..=7 => 0,
        8..=39 => random.pick(&[1, 2, 63, 64, 65]),
        _ => 1 + random.below(100) as u16,
    }
}

/// Puts one to three fields at or past an end of their range.
fn damage(record: &mut Record, random: &mut Random) {
    let kind = record.kind();
    let fields = [settings(kind), state(kind)].concat();
    if fields.is_empty() {
        return;
    }
    for _ in 0..1 + random.below(3) {
        let field = random.pick(&fields);
        record.set_word(field.at, field.holds.damaged(random));
    }
    if kind == STRING && random.one_in(4) {
        record.set_word(REGISTRATION_COUNT_AT, random.below(9));
    }
}

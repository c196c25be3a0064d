//! Lists of call records: first fixed ones (figures, block lengths, every boundary, crossings beside
//! a reset), then random ones whose states come from chains of calls and from set-ups made by hand.

mod beside;
mod chains;
mod classic;
pub mod drifts;
pub mod fields;
pub mod figures;
pub mod fixed;
pub mod late;
mod meetings;
mod others;
pub mod setups;

use super::record::Record;
use super::Kinds;
use crate::random::Random;
use chains::Chains;

/// Kind bytes that no oscillator has.
const NO_KINDS: [u8; 4] = [0, 7, 8, 255];

/// How many random records of each kind are recorded, and their seed.
const RECORDED: usize = 300;
const RECORDED_SEED: u64 = 2;

/// A list of `count` records, most of the kinds named, some of others. In some random ones a crossing
/// meets a reset: these are no part of a chain, so that a seed's other records do not hang on them.
pub fn records(count: usize, seed: u64, kinds: &Kinds) -> Vec<Record> {
    let mut records: Vec<Record> = kinds.list().into_iter().flat_map(fixed::records).collect();
    records.extend(kinds.list().into_iter().flat_map(late::records));
    records.truncate(count);
    let mut meeting = Random::new(!seed);
    let random = random(count - records.len(), seed, kinds).into_iter();
    records.extend(random.map(|record| meetings::sometimes(record, &mut meeting)));
    records
}

/// For each kind and block length a call that drifts, where `tries` find one.
pub fn drifting(tries: u64, seed: u64) -> Vec<Record> {
    let mut random = Random::new(seed);
    let kinds = Kinds::all().list().into_iter();
    kinds
        .flat_map(|kind| drifts::everywhere(kind, tries, &mut random))
        .collect()
}

/// The records of crates/calls: for each kind all fixed ones, those beside a turning point, and some
/// random ones; then for each kind those with a crossing beside a reset.
pub fn recorded() -> Vec<Record> {
    let of_kind = |kind: u8| {
        let random = random(RECORDED, RECORDED_SEED, &Kinds::one(kind));
        [fixed::records(kind), beside::beside(kind), random].concat()
    };
    let kinds = Kinds::all().list();
    let mut records: Vec<Record> = kinds.iter().copied().flat_map(of_kind).collect();
    records.extend(kinds.into_iter().flat_map(late::records));
    records
}

fn random(count: usize, seed: u64, kinds: &Kinds) -> Vec<Record> {
    let mut random = Random::new(seed);
    let mut chains = Chains::default();
    let named = kinds.list();
    let others: Vec<u8> = Kinds::all()
        .list()
        .into_iter()
        .filter(|&k| !kinds.has(k))
        .collect();
    let others = [others.as_slice(), &NO_KINDS].concat();
    let next = |_| {
        let kind = match random.one_in(16) {
            true => random.pick(&others),
            false => random.pick(&named),
        };
        chains.next(kind, &mut random)
    };
    (0..count).map(next).collect()
}

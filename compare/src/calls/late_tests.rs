//! Late crossings: the rule, what the fixed calls show of it, and the laws that the counts keep to.

use super::line::buffer;
use super::make::late::{meetings, without_sync};
use super::make::{recorded, records};
use super::model::{self, Counts, Crossing, Edge, Outcome, Sample};
use super::record::*;
use super::resets::{Meets, Met};
use super::wrong_rules::{told, RULES};
use super::Kinds;

fn call(record: &Record) -> Outcome {
    model::call(record, &mut buffer(record)).unwrap()
}

/// Those of the records that ask for a block which is answered, with what they count.
fn answered(records: Vec<Record>) -> impl Iterator<Item = (Record, Outcome)> {
    let is_rendered = |record: &Record| {
        let is_one = Kinds::all().has(record.kind()) && record.asks() == Asks::Render;
        is_one && record.length() <= LONGEST_TRIED
    };
    let rendered = records.into_iter().filter(is_rendered);
    let calls = rendered.map(|record| (record, call(&record)));
    calls.filter(|(_, outcome)| outcome.answer == 0)
}

fn has_sync(record: &Record) -> bool {
    match record.kind() {
        SHAPE => record.sync(),
        kind => kind == SUPER_SQUARE,
    }
}

/// Where `high` stands in a state that has it.
fn high(kind: u8) -> Option<usize> {
    match kind {
        SHAPE | CLASSIC => Some(4),
        SAW | SUPER_SQUARE => Some(3),
        _ => None,
    }
}

fn shown(sample: &Sample) -> Vec<(Edge, Meets)> {
    let met = |c: &Crossing| (c.edge, Meets::of(c));
    sample.crossings.iter().map(met).collect()
}

#[test]
fn a_crossing_is_late_where_its_t_is_below_the_reset_time() {
    let is_late = |t: f32, time: Option<f32>| Crossing::new(Edge::Rise, t, time).is_late();
    let below = 0.5f32.next_down();
    for (t, time) in [(0.0, 0.5), (below, 0.5), (-0.0, 0.5), (-3.0, 0.0)] {
        assert!(is_late(t, Some(time)), "{t} and {time}");
    }
    let nan = f32::NAN;
    for (t, time) in [
        (0.5, 0.5),
        (0.5, below),
        (-0.0, 0.0),
        (nan, 0.0),
        (nan, 0.5),
    ] {
        assert!(!is_late(t, Some(time)), "{t} and {time}");
    }
    assert!([-3.0, 0.0, 0.5, nan].iter().all(|&t| !is_late(t, None)));
}

#[test]
fn each_fixed_call_shows_what_it_says() {
    for kind in [SHAPE, SUPER_SQUARE] {
        for (i, (shows, record)) in meetings(kind).into_iter().enumerate() {
            let outcome = call(&record);
            assert_eq!(outcome.answer, 0, "kind {kind}, call {i}");
            assert_eq!(shown(&outcome.samples[0]), shows, "kind {kind}, call {i}");
        }
    }
}

#[test]
fn without_sync_the_fixed_calls_cross_alike_and_nothing_is_late() {
    for (shows, record) in meetings(SHAPE) {
        let outcome = call(&without_sync(record));
        let edges = |met: &[(Edge, Meets)]| met.iter().map(|m| m.0).collect::<Vec<Edge>>();
        assert_eq!(edges(&shown(&outcome.samples[0])), edges(shows));
        assert_eq!(outcome.counts.late(), 0);
    }
}

/// The width came down from 5/8 to 1/4, and the step is 1/8: the slave goes from 1/4 to 3/8, so that
/// t = (3/8 - 1/4) / (5/8 - 1/4 + 1/8) = 1/4. The master goes from 7/8 to 9/8, so that the reset time
/// is (1/8) / (1/4) = 1/2. The rise is late, and it is what is cut.
#[test]
fn a_late_rise_by_hand() {
    let outcome = call(&meetings(SHAPE)[0].1);
    let [rise] = outcome.samples[0].crossings[..] else {
        panic!("not one crossing")
    };
    assert_eq!((rise.edge, rise.t), (Edge::Rise, 0.25));
    assert_eq!(rise.reset_time, Some(0.5));
    let expected = Counts {
        cycles: 1,
        cuts: 1,
        late_rises: 1,
        ..Counts::default()
    };
    assert_eq!(outcome.counts, expected);
}

/// The slave is low, its step is 1/8, and it goes from 29/32 to 33/32. The super square rises at 1/2
/// with t = (33/32 - 1/2) / (1/8) = 17/4, the variable shape at its width 3/4 with t = (9/32) / (1/8) =
/// 9/4. Both fall with t = (1/32) / (1/8) = 1/4. The reset time is 1/2: the masters go from 15/16 by
/// 1/8, and from 7/8 by 1/4. So the fall alone is late, and there is nothing to cut.
#[test]
fn a_late_fall_by_hand() {
    for (kind, place, rise_t) in [(SUPER_SQUARE, 0, 4.25), (SHAPE, 1, 2.25)] {
        let outcome = call(&meetings(kind)[place].1);
        let [rise, fall] = outcome.samples[0].crossings[..] else {
            panic!("not two crossings")
        };
        assert_eq!((rise.edge, rise.t), (Edge::Rise, rise_t));
        assert_eq!((fall.edge, fall.t), (Edge::Fall, 0.25));
        assert_eq!([rise.reset_time, fall.reset_time], [Some(0.5); 2]);
        let expected = Counts {
            cycles: 1,
            rises: 1,
            late_falls: 1,
            ..Counts::default()
        };
        assert_eq!(outcome.counts, expected);
    }
}

/// What 01 counts in a sample of a kind that may have sync, each crossing as heard: cycles, rises,
/// falls and cuts. `before` is the state before the sample, and `after` holds its steps.
fn counted_as_heard(record: &Record, before: &[u32], after: &[u32]) -> [u32; 4] {
    let float = |words: &[u32], word: usize| f32::from_bits(words[word]);
    let (at, width) = match record.kind() {
        SHAPE => (4, float(after, 7)),
        _ => (3, 0.5),
    };
    let (master_step, step) = (float(after, at + 1), float(after, at + 2));
    let (mut phase, mut high) = (float(before, 1), before[at] != 0);
    let master = float(before, 0) + master_step;
    let resets = has_sync(record) && master >= 1.0;
    let mut crosses = true;
    if resets {
        let at_reset = phase + (1.0 - (master - 1.0) / master_step) * step;
        crosses = at_reset >= 1.0 || (!high && at_reset >= width);
    }
    phase += step;
    let (mut rises, mut falls) = (0, 0);
    while crosses && (high || phase >= width) {
        rises += u32::from(!high);
        high = phase < 1.0;
        if high {
            break;
        }
        phase -= 1.0;
        falls += 1;
    }
    let cycles = if has_sync(record) {
        u32::from(resets)
    } else {
        falls
    };
    [cycles, rises, falls, u32::from(resets && high)]
}

#[test]
fn late_and_not_late_together_are_what_01_counts() {
    let mut late = 0;
    for kind in [SHAPE, SUPER_SQUARE] {
        for (record, outcome) in answered(records(6000, 21, &Kinds::one(kind))) {
            let mut before = record.state_words();
            for sample in outcome.samples.iter().filter(|_| record.kind() == kind) {
                let counts = sample.counts;
                let all = [
                    counts.cycles,
                    counts.all_rises(),
                    counts.all_falls(),
                    counts.cuts,
                ];
                assert_eq!(all, counted_as_heard(&record, &before, &sample.words));
                before = sample.words.clone();
                late += counts.late();
            }
        }
    }
    assert!(late > 500, "{late} late");
}

#[test]
fn in_each_sample_the_late_ones_added_back_balance_and_keep_to_the_limits() {
    for (record, outcome) in answered(records(9000, 3, &Kinds::all())) {
        let Some(word) = high(record.kind()) else {
            continue;
        };
        let mut high = record.state_words()[word];
        for sample in &outcome.samples {
            let [rises, falls] = [sample.counts.all_rises(), sample.counts.all_falls()];
            let change = i64::from(sample.words[word]) - i64::from(high);
            assert_eq!(
                i64::from(rises) - i64::from(falls + sample.counts.cuts),
                change
            );
            assert!(rises <= 2 && falls <= 1, "{rises} rises, {falls} falls");
            high = sample.words[word];
        }
    }
}

#[test]
fn a_call_counts_what_its_samples_count() {
    for (_, outcome) in answered(records(3000, 8, &Kinds::all())) {
        let mut sum = Counts::default();
        outcome.samples.iter().for_each(|s| sum.add(&s.counts));
        assert_eq!(outcome.counts, sum);
    }
}

#[test]
fn nothing_is_late_without_sync_and_of_the_other_kinds() {
    let mut without = 0;
    for (record, outcome) in answered(records(12_000, 4, &Kinds::all())) {
        if !has_sync(&record) {
            assert_eq!(outcome.counts.late(), 0);
            without += outcome.counts.rises;
        }
    }
    assert!(without > 10_000, "{without} rises");
}

#[test]
fn fresh_calls_often_meet_a_reset_in_each_way() {
    let met = |kind: u8| {
        let (mut met, mut calls, mut late) = (Met::default(), 0, 0);
        for (record, outcome) in answered(records(12_000, 6, &Kinds::one(kind))) {
            if record.kind() == kind && has_sync(&record) {
                outcome.samples.iter().for_each(|sample| met.add(sample));
                calls += 1;
                late += usize::from(outcome.counts.late() > 0);
            }
        }
        assert!(late > calls / 25, "kind {kind}: late in {late} of {calls}");
        met
    };
    let shape = met(SHAPE);
    assert!(shape.late_rise.min(shape.late_fall) > 100 && shape.both > 20);
    assert!(shape.at > 100 && shape.negative > 20 && shape.nan > 5);
    assert!(shape.negative_without_reset > 20);
    let square = met(SUPER_SQUARE);
    // The width is half a cycle, farther than a step: a rise is late by rounding alone.
    assert!(square.late_rise > 5 && square.late_fall > 100 && square.at > 100);
    assert_eq!([square.both, square.negative, square.nan], [0; 3]);
}

#[test]
fn the_recorded_calls_tell_each_wrong_rule() {
    let recorded: Vec<(Record, Outcome)> = answered(recorded()).collect();
    for (what, rule) in RULES {
        let differs = |samples: &[Sample]| told(samples, rule) != told(samples, Crossing::is_late);
        let mut outcomes = recorded.iter().map(|(_, outcome)| outcome);
        assert!(outcomes.any(|outcome| differs(&outcome.samples)), "{what}");
    }
}

//! What the lists with late crossings show, and that random lists come to them too.

use super::expect::{text, Carried};
use super::job;
use super::make::{late, lists, recorded};
use super::{refused, Tried, JOB_BYTES};
use crate::calls::expect::held_call;
use crate::calls::model::{Crossing, Edge, Sample};
use crate::calls::record::{Record, SHAPE, SUPER_SQUARE};
use crate::calls::resets::{Meets, Met};
use crate::calls::wrong_rules::{told, NO_NEGATIVE, RULES};

/// What each record of a list counts, sample by sample; nothing where it is malformed.
fn played(list: &[u8]) -> Vec<(Record, Vec<Sample>)> {
    let mut carried = Carried::start();
    let mut played = Vec::new();
    for record in list.chunks(JOB_BYTES) {
        let Some(mut call) = job::call(record) else {
            continue;
        };
        let state = &mut carried.0[usize::from(call.kind())];
        call.set_state_words(state);
        let outcome = held_call(&call, &mut vec![0.0; call.length()]).unwrap();
        *state = outcome.words;
        played.push((call, outcome.samples));
    }
    played
}

#[test]
fn each_list_shows_in_its_last_sample_what_it_says() {
    for kind in [SHAPE, SUPER_SQUARE] {
        for (i, (shows, jobs)) in late::meetings(kind).into_iter().enumerate() {
            let played = played(&jobs.concat());
            assert_eq!(played.len(), jobs.len());
            let last = played.last().unwrap().1.last();
            let met = |c: &Crossing| (c.edge, Meets::of(c));
            let met: Vec<(Edge, Meets)> = last.unwrap().crossings.iter().map(met).collect();
            assert_eq!(met, shows, "kind {kind}, list {i}");
        }
    }
}

/// In the last sample of the first list the slave is low and goes on by 1/16, and the width comes down:
/// the rise is late, and the reset finds it high.
#[test]
fn a_late_rise_and_the_cut_that_is_due_to_it_are_told() {
    let text = text(&late::lists(SHAPE)[0], &mut Tried::default()).unwrap();
    assert_eq!(text, "0 0 0 0 0 0 0 0\n1 0 0 1 0 0 1 1\n");
}

#[test]
fn the_recorded_lists_tell_each_wrong_rule_but_one() {
    let lists = recorded::lists().into_iter().filter(|list| !refused(list));
    let calls: Vec<_> = lists.flat_map(|list| played(&list)).collect();
    for (what, rule) in RULES {
        let mut samples = calls.iter().map(|(_, samples)| samples);
        let is_told = samples.any(|s| told(s, rule) != told(s, Crossing::is_late));
        assert_eq!(is_told, what != NO_NEGATIVE, "{what}");
    }
}

#[test]
fn random_lists_meet_late_crossings() {
    let mut met = Met::default();
    for list in lists(400, 12).skip(lists(0, 0).count()) {
        if !refused(&list) {
            let samples = played(&list).into_iter().flat_map(|(_, samples)| samples);
            samples.for_each(|sample| met.add(&sample));
        }
    }
    assert!(met.late_rise > 50 && met.late_fall > 50 && met.both > 10 && met.at > 100);
    assert_eq!(met.negative, 0);
}

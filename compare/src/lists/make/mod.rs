//! Job lists: first fixed ones (every length, damage and boundary that matters), then random ones.

pub mod changes;
pub mod damage;
pub mod fixed;
pub mod late;
mod meetings;
pub mod recorded;
mod runs;
pub mod starts;
pub mod ways;

use super::job::{job, Job};
use crate::calls::make::fixed::plain;
use crate::calls::record::FREQUENCY_AT;
use crate::random::Random;

/// The fixed lists and `count` random ones, as bytes.
pub fn lists(count: usize, seed: u64) -> impl Iterator<Item = Vec<u8>> {
    let mut random = Random::new(seed);
    let random_lists = (0..count).map(move |_| runs::list(&mut random));
    fixed::lists().into_iter().chain(random_lists)
}

/// A record that is answered, of a length and frequency under which cycles end in some blocks and
/// not in others, so that its line tells from which state it was played.
pub fn sound(kind: u8) -> Job {
    let mut call = plain(kind);
    call.set_length(7);
    call.set_float(FREQUENCY_AT, 0.11);
    job(&call)
}

#[cfg(test)]
mod tests {
    use super::lists;
    use crate::lists::{refused, JOB_BYTES, MOST_BYTES};

    #[test]
    fn a_seed_gives_the_same_lists_again_and_more_after_them() {
        let few: Vec<Vec<u8>> = lists(20, 9).collect();
        let more: Vec<Vec<u8>> = lists(30, 9).collect();
        assert_eq!(more.len(), few.len() + 10);
        assert!(few == more[..few.len()]);
        assert!(lists(20, 8).any(|list| !few.contains(&list)));
    }

    #[test]
    fn most_random_lists_are_short_and_none_is_too_long() {
        let fixed = lists(0, 0).count();
        let random: Vec<Vec<u8>> = lists(500, 6).skip(fixed).collect();
        let with = |least: usize| {
            let records = random.iter().map(|list| list.len() / JOB_BYTES);
            records.filter(|&count| count >= least).count()
        };
        assert!(with(33) < 250, "{} lists of 33 records or more", with(33));
        assert!(with(600) > 0);
        assert!(random.iter().all(|list| list.len() < MOST_BYTES + 64));
        assert!(random.iter().any(|list| refused(list)));
    }
}

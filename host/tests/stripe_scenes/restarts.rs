//! Restarts and compactions of logs of every kind, and of entries with the same first bytes, last bytes
//! and ages.

use super::{drawn, rebuilt};
use gilboreth_host::ages::Ages;
use gilboreth_host::beside::Beside;
use gilboreth_host::logs::kinds;
use gilboreth_host::model::runs::Run;
use gilboreth_host::model::EOF;
use gilboreth_host::random::for_seeds;
use std::ops::Range;

/// Each kind, with few entries and with as many as a log holds.
pub fn of_every_kind(beside: &mut Beside) {
    for count in [1, 2, 3, 5, 17, 100, 2_048] {
        for (name, entries) in kinds(count) {
            assert_eq!(rebuilt(beside, &entries), 0, "{count} entries, {name}");
        }
    }
}

/// Entries on a few bytes near 0 or near the end of the stripe, with few ages, in any order: many
/// begin, end, touch and tie in one place.
pub fn crowded(beside: &mut Beside, seeds: Range<u64>) {
    for_seeds(seeds, |random| {
        let count = random.below(120);
        let (end, longest) = (1 + random.below(40), 1 + random.below(30));
        let ages = Ages::few(random);
        let mut entries = drawn(random, count, end, longest, ages);
        if random.once_in(2) {
            let shift = EOF - (end - 1);
            let far = |e: &Run| Run { first: e.first + shift, last: e.last + shift, ..*e };
            entries = entries.iter().map(far).collect();
        }
        match random.below(5) {
            0 => entries.sort_by_key(|entry| entry.first),
            1 => entries.sort_by_key(|entry| EOF - entry.first),
            2 => entries.sort_by_key(|entry| entry.age),
            3 => entries.sort_by_key(|entry| entry.age.pass),
            _ => {}
        }
        rebuilt(beside, &entries);
    });
}

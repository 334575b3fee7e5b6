//! Scenes of one stripe. Each plays note, write, restart and compaction on the calls under test beside
//! the model.

pub mod compactions;
pub mod cuts;
pub mod damage;
pub mod edges;
pub mod limits;
pub mod pieces;
pub mod restarts;

use gilboreth_host::ages::Ages;
use gilboreth_host::beside::Beside;
use gilboreth_host::model::runs::{Age, Run, RUNS};
use gilboreth_host::model::stripe::{decode_log, encode_log, run_at, LOG_BYTES, MAP_BYTES};
use gilboreth_host::random::Random;

/// Runs anywhere under the end, of at most this length, with any of these ages.
fn drawn(random: &mut Random, count: u64, end: u64, longest: u64, ages: Ages) -> Vec<Run> {
    let mut draw = || {
        let first = random.below(end);
        let last = (first + random.below(longest)).min(end - 1);
        Run { first, last, age: ages.draw(random) }
    };
    (0..count).map(|_| draw()).collect()
}

/// Runs of one byte and one age, on every other byte.
fn apart(count: u64, age: Age) -> Vec<Run> {
    (0..count).map(|place| Run { first: 2 * place, last: 2 * place, age }).collect()
}

/// A restart of the log with these entries, and its compaction, which is answered alike. The new log has
/// at most 1,024 entries, at most 2n - 1 of n, and the same map; compacting it changes nothing.
fn rebuilt(beside: &mut Beside, entries: &[Run]) -> u64 {
    let log = encode_log(entries);
    let (mut map, mut new_map) = (vec![0xEE; MAP_BYTES], vec![0xEE; MAP_BYTES]);
    let (mut new_log, mut again) = (vec![0xEE; LOG_BYTES], vec![0xEE; LOG_BYTES]);
    let answered = beside.restart(&mut map, &log);
    assert_eq!(beside.compact(&log, &mut new_log), answered);
    if answered == 0 {
        let count = decode_log(&new_log).unwrap().len();
        assert!(count <= RUNS && count <= (2 * entries.len()).saturating_sub(1));
        assert!(new_log[run_at(count)..].iter().all(|&byte| byte == 0));
        assert_eq!(beside.restart(&mut new_map, &new_log), 0);
        assert_eq!(beside.compact(&new_log, &mut again), 0);
        assert!(new_map == map && again == new_log);
    }
    answered
}

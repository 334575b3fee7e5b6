//! Compactions into buffers of any content, and notes after them.

use super::{apart, drawn};
use gilboreth_host::ages::Ages;
use gilboreth_host::beside::Beside;
use gilboreth_host::model::runs::{map_of, Age, Run, ENTRIES, RUNS};
use gilboreth_host::model::stripe::{encode_log, run_at, Piece, LOG_BYTES, MAP_BYTES};
use gilboreth_host::random::{for_seeds, Random};
use std::ops::Range;

/// Whatever stood in the second buffer, also the old log itself or a longer one, an accepted call leaves
/// the same bytes there. What stands after the entries of the old log says nothing.
pub fn over_any_content(beside: &mut Beside, seeds: Range<u64>) {
    for_seeds(seeds, |random| {
        let count = random.pick(&[0, 1, 7, 100, 1_000, 2_048]);
        let entries = drawn(random, count, 1 << 20, 1 << 10, Ages::up_to(1 + count / 16));
        let mut old_log = encode_log(&entries);
        random.fill(&mut old_log[run_at(count as usize)..]);
        let runs = map_of(&entries);
        let expected = if runs.len() > RUNS { None } else { Some(encode_log(&runs)) };
        for content in contents(random, &old_log) {
            let mut new_log = content.clone();
            let answered = beside.compact(&old_log, &mut new_log);
            assert_eq!(answered, if expected.is_some() { 0 } else { 16 });
            assert!(new_log == *expected.as_ref().unwrap_or(&content));
        }
    });
}

fn contents(random: &mut Random, old_log: &[u8]) -> Vec<Vec<u8>> {
    let mut anything = vec![0; LOG_BYTES];
    random.fill(&mut anything);
    let full = encode_log(&apart(ENTRIES as u64, Age::new(9, 9)));
    let unsound = encode_log(&[Run::new(5, 4, 0, 0)]);
    vec![vec![0; LOG_BYTES], vec![0xFF; LOG_BYTES], old_log.to_vec(), full, unsound, anything]
}

/// Logs of 1,023 to 1,026 runs and as many entries as runs, and of 1,024 runs and 2,048 entries.
pub fn at_the_limit_of_runs(beside: &mut Beside) {
    for count in [1_023, 1_024, 1_025, 1_026] {
        let rising = apart(count, Age::new(5, 5));
        let falling: Vec<Run> = rising.iter().rev().copied().collect();
        for mut entries in [rising, falling] {
            for more in [0, 1, ENTRIES - count as usize] {
                entries.resize(count as usize + more, entries[0]);
                let mut new_log = vec![0xEE; LOG_BYTES];
                let answered = beside.compact(&encode_log(&entries), &mut new_log);
                assert_eq!(answered, if count > RUNS as u64 { 16 } else { 0 }, "{count} runs");
                let fits = encode_log(&apart(count, Age::new(5, 5)));
                assert!(new_log == if answered == 0 { fits } else { vec![0xEE; LOG_BYTES] });
            }
        }
    }
}

/// After the compaction of a full log as many notes fit as 2,048 less its runs, and the next is refused
/// with 17: in a map of 1,024 runs 1,024 notes, also where the runs touch and differ in the pass alone.
pub fn notes_after(beside: &mut Beside) {
    let chain = |place| Run::new(3 * place, 3 * place + 2, 7, 7);
    let one_run = (0..ENTRIES as u64).map(chain).collect();
    let by_turns = |place| Run::new(place, place, 7, 1 + place % 2);
    let one_number: Vec<Run> = (0..RUNS as u64).map(by_turns).collect();
    for (runs, entries) in [
        (RUNS, apart(RUNS as u64, Age::new(5, 5)).repeat(2)),
        (RUNS, one_number.repeat(2)),
        (1, one_run),
    ] {
        let (mut map, mut log) = (vec![0xEE; MAP_BYTES], vec![0xEE; LOG_BYTES]);
        assert_eq!(beside.compact(&encode_log(&entries), &mut log), 0);
        assert_eq!(beside.restart(&mut map, &log), 0);
        let Run { first, last, age } = entries[0];
        let piece = Piece { first, bytes: last - first + 1, age };
        for fits in runs..ENTRIES {
            assert_eq!(beside.note(&mut map, &mut log, piece, 1 << 20), 0, "{fits} entries");
        }
        assert_eq!(beside.note(&mut map, &mut log, piece, 1 << 20), 17, "{runs} runs");
    }
}

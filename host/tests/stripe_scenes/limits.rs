//! Maps near 1,024 runs, logs near 2,048 entries, and restarts and compactions of logs that need about
//! 1,024 runs.

use super::{apart, drawn, rebuilt};
use gilboreth_host::ages::Ages;
use gilboreth_host::beside::Beside;
use gilboreth_host::model::runs::{Age, Run};
use gilboreth_host::model::stripe::{encode_log, encode_map, Piece};
use gilboreth_host::model::{HIGHEST, HIGHEST_PASS};
use gilboreth_host::random::{for_seeds, Random};
use std::ops::Range;

/// Number 5 and pass 5, and what is smaller and greater: by the pass, and by the number against the pass.
const EQUAL: &[Age] = &[Age::new(5, 5)];
const SMALLER: &[Age] = &[Age::new(5, 4), Age::new(4, 9)];
const GREATER: &[Age] = &[Age::new(5, 6), Age::new(6, 1)];

/// Runs of three bytes with number 5, pass 5 and two bytes between; a piece near the run from byte 50 to
/// 52, and how many runs it adds. At 1,024 runs one that adds none isn't refused with 16, and where
/// both limits are reached 16 comes first. A number or a pass of 0 is 15 before either.
pub fn notes(beside: &mut Beside) {
    let run = |place: u64| Run::new(5 * place, 5 * place + 2, 5, 5);
    for count in [1_022, 1_023, 1_024_i64] {
        let map = encode_map(&(0..count as u64).map(run).collect::<Vec<_>>());
        for entries in [2_046, 2_047, 2_048] {
            let log = encode_log(&vec![run(0); entries]);
            let mut note = |first, bytes, age| {
                let piece = Piece { first, bytes, age };
                beside.note(&mut map.clone(), &mut log.clone(), piece, 10_000)
            };
            for (first, length, ages, added) in [
                (50, 3, SMALLER, 0),
                (50, 3, EQUAL, 0),
                (50, 3, GREATER, 0),
                (51, 1, SMALLER, 0),
                (51, 1, GREATER, 2),
                (50, 1, GREATER, 1),
                (52, 1, GREATER, 1),
                (53, 1, EQUAL, 0),
                (53, 1, SMALLER, 1),
                (53, 1, GREATER, 1),
                (53, 2, EQUAL, -1),
                (53, 2, SMALLER, 1),
                (49, 5, SMALLER, 2),
                (50, 8, GREATER, -1),
                (0, 10_000, SMALLER, count),
                (0, 10_000, GREATER, 1 - count),
                (9_000, 1, EQUAL, 1),
            ] {
                let expected = match (count + added > 1_024, entries) {
                    (true, _) => 16,
                    (false, 2_048) => 17,
                    (false, _) => 0,
                };
                for &age in ages {
                    let answered = note(first, length, age);
                    assert_eq!(answered, expected, "{count} runs, {entries} entries, {first}");
                }
            }
            for age in [Age::new(0, 5), Age::new(5, 0), Age::new(5, HIGHEST_PASS + 6)] {
                assert_eq!((note(50, 3, age), note(9_000, 1, age)), (15, 15));
            }
        }
    }
}

/// Pieces of any shape on maps of 1,022 to 1,024 runs, some of which touch.
pub fn drawn_notes(beside: &mut Beside, seeds: Range<u64>) {
    for_seeds(seeds, |random| {
        let count = 1_022 + random.below(3) as usize;
        let ages = Ages::few(random);
        let runs = crowd(random, count, ages);
        let mut map = encode_map(&runs);
        let mut log = encode_log(&vec![runs[0]; 2_040 + random.below(9) as usize]);
        let end = runs[count - 1].last + 4;
        for _ in 0..6 {
            let near = random.pick(&runs);
            let first = (near.first + random.below(3)).saturating_sub(random.below(3));
            let longest = if random.once_in(6) { end } else { 1 + random.below(9) };
            let length = longest.min(end - first);
            let age = ages.draw(random);
            beside.note(&mut map, &mut log, Piece { first, bytes: length, age }, end);
            let bytes = &vec![0xEE; length as usize][..];
            beside.write(&map, &mut vec![0; end as usize], Piece { first, bytes, age });
        }
    });
}

/// A sound map of this many runs, as dense as one can be.
fn crowd(random: &mut Random, count: usize, ages: Ages) -> Vec<Run> {
    let mut runs: Vec<Run> = vec![Run { first: 1, last: 1, age: ages.draw(random) }];
    while runs.len() < count {
        let left = runs[runs.len() - 1];
        let first = left.last + 1 + random.below(3);
        let run = Run { first, last: first + random.below(3), age: ages.draw(random) };
        if first > left.last + 1 || run.age != left.age {
            runs.push(run);
        }
    }
    runs
}

/// A part of each log needs 1,300 runs; one entry over some of them leaves as many as named.
/// Wherever it stands, the log is refused with 16 only if the whole needs over 1,024.
pub fn restarts(beside: &mut Beside, seeds: Range<u64>) {
    for_seeds(seeds, |random| {
        let mut entries = apart(1_300, random.pick(&[SMALLER, EQUAL].concat()));
        random.shuffle(&mut entries);
        for needed in [1_023, 1_024, 1_025, 1_026] {
            let last = 2 * (1_300 - needed);
            let age = random.pick(&[EQUAL, GREATER].concat());
            let over = Run { first: 0, last, age };
            for place in [0, random.below(1_300) as usize, 1_300] {
                let mut entries = entries.clone();
                entries.insert(place, over);
                let answered = rebuilt(beside, &entries);
                assert_eq!(answered, if needed > 1_024 { 16 } else { 0 }, "{needed} runs");
            }
        }
    });
}

/// Logs of 2,046 to 2,048 entries: apart, nested, touching in rising and falling order, of one age and
/// in passes by turns, and drawn.
pub fn full_logs(beside: &mut Beside, seeds: Range<u64>) {
    for_seeds(seeds, |random| {
        let count = 2_046 + random.below(3);
        let nested = |place| Run::new(place, 5_000 - place, 1 + place / 8, 1 + place / 4 % 2);
        let touching = |place| Run::new(3 * place, 3 * place + 2, 7, 7);
        let by_turns = |place| Run::new(3 * place, 3 * place + 2, 7, 1 + place / 2 % 2);
        let few = Ages::few(random);
        let logs = [
            apart(count, Age::new(2, 2)),
            (0..count).map(nested).collect(),
            (0..count).map(nested).rev().collect(),
            (0..count).map(touching).collect(),
            (0..count).map(touching).rev().collect(),
            (0..count).map(by_turns).collect(),
            (0..count).map(by_turns).rev().collect(),
            drawn(random, count, 2_500, 4, few),
            drawn(random, count, 2_500, 20, Ages::up_to(9)),
            drawn(random, count, 1 << 40, 1 << 40, Ages::up_to(HIGHEST)),
        ];
        for entries in logs {
            rebuilt(beside, &entries);
        }
    });
}

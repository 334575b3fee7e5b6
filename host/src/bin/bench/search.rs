//! Looks for logs that cost a restart much, and tells what their compaction costs. Each begins as a shape
//! that is drawn, and is changed part by part as long as it costs more. By hand:
//! `tools/bench search SECONDS`.

use crate::case::micros;
use gilboreth_host::calls::{Calls, LIBRARY, SHIPPED};
use gilboreth_host::model::runs::{Age, Run, ENTRIES};
use gilboreth_host::model::stripe::{encode_log, LOG_BYTES, MAP_BYTES};
use gilboreth_host::random::Random;
use std::time::{Duration, Instant};

/// What no restart and no compaction may take.
const WANTED: Duration = Duration::from_millis(1);
/// So many changes in a row that gain nothing end a climb.
const IDLE: usize = 60;

/// Looks for so long, and prints the worst log of each shape that was the worst until then.
pub fn search(limit: Duration) {
    let end = Instant::now() + limit;
    let mut random = Random::new(0);
    let (mut logs, mut worst) = (0_u64, Duration::ZERO);
    let mut found = Vec::new();
    while Instant::now() < end {
        let (shape, mut entries) = draw(&mut random);
        let mut cost = least(LIBRARY, &entries, 7);
        let mut idle = 0;
        while idle < IDLE && Instant::now() < end {
            let mut changed = entries.clone();
            change(&mut random, &mut changed);
            let changed_cost = least(LIBRARY, &changed, 7);
            logs += 1;
            idle += 1;
            if changed_cost > cost {
                (entries, cost, idle) = (changed, changed_cost, 0);
            }
        }
        // Once more, so that no other program's time counts as the log's.
        cost = least(LIBRARY, &entries, 101);
        if cost > worst {
            worst = cost;
            eprintln!("{:.0} µs: {shape}", micros(cost));
            found = entries;
        }
    }
    println!("{logs} logs tried; the worst:");
    for (name, least) in [("restart", least as Least), ("compaction", least_compaction)] {
        let [library, shipped] = [LIBRARY, SHIPPED].map(|side| least(side, &found, 1_001));
        let mark = if library <= WANTED { ' ' } else { '*' };
        let (library, shipped) = (micros(library), micros(shipped));
        println!("{name}: {library:.0} µs {mark} (the Rust: {shipped:.0} µs)");
    }
}

type Least = fn(Calls, &[Run], usize) -> Duration;

/// The least time of so many restarts. Some logs are refused with 16, after the same work.
fn least(side: Calls, entries: &[Run], times: usize) -> Duration {
    let (log, mut map) = (encode_log(entries), vec![0; MAP_BYTES]);
    least_of(times, || (side.restart)(&mut map, &log))
}

fn least_compaction(side: Calls, entries: &[Run], times: usize) -> Duration {
    let (log, mut new_log) = (encode_log(entries), vec![0; LOG_BYTES]);
    least_of(times, || (side.compact)(&log, &mut new_log))
}

fn least_of(times: usize, mut call: impl FnMut() -> u64) -> Duration {
    let mut once = || {
        let start = Instant::now();
        let answered = call();
        let time = start.elapsed();
        assert!(answered == 0 || answered == 16, "{answered}");
        time
    };
    (0..times).map(|_| once()).min().unwrap()
}

/// A full log: first bytes, lengths and ages each by one of a few rules, in one of a few orders.
fn draw(random: &mut Random) -> (String, Vec<Run>) {
    let count = ENTRIES as u64;
    let firsts = random.pick(&["apart", "touching", "equal", "anywhere", "in streams"]);
    let lengths = random.pick(&["short", "long", "nested", "any length"]);
    let ages = random.pick(&["one age", "rising", "falling", "scrambled", "any age"]);
    let counted = random.pick(&COUNTED);
    let order = random.pick(&["as it is", "reversed", "shuffled", "in blocks"]);
    let streams = 1 + random.below(64);
    let mut entry = |place: u64| {
        let first = match firsts {
            "apart" => 20 * place,
            "touching" => 10 * place,
            "equal" => 0,
            "anywhere" => random.below(1 << 20),
            _ => place % streams * 100_000 + 10 * (place / streams),
        };
        let length = match lengths {
            "short" => 10,
            "long" => 1 << 24,
            "nested" => (1 << 24) - 2 * first,
            _ => 1 + random.below(1 << 20),
        };
        let age = match ages {
            "one age" => 0,
            "rising" => place,
            "falling" => count - 1 - place,
            "scrambled" => place * 997 % count,
            _ => random.below(count),
        };
        Run { first, last: first + length - 1, age: counted_by(counted, age) }
    };
    let mut entries: Vec<Run> = (0..count).map(&mut entry).collect();
    match order {
        "reversed" => entries.reverse(),
        "shuffled" => random.shuffle(&mut entries),
        "in blocks" => entries.chunks_mut(streams as usize).for_each(<[Run]>::reverse),
        _ => {}
    }
    (format!("{firsts}, {lengths}, {ages} by {counted}, {order}"), entries)
}

const COUNTED: [&str; 3] = ["numbers", "passes", "both"];

/// The age at a place among those that rise by numbers, by passes or by both.
fn counted_by(counted: &str, place: u64) -> Age {
    match counted {
        "numbers" => Age::new(1 + place, 1),
        "passes" => Age::new(1, 1 + place),
        _ => Age::new(1 + place / 32, 1 + place % 32),
    }
}

/// Changes some of the log's entries, or their order.
fn change(random: &mut Random, entries: &mut [Run]) {
    let count = entries.len() as u64;
    let from = random.below(count);
    let length = match random.below(3) {
        0 => 2 + random.below(8),
        1 => 2 + random.below(256),
        _ => count,
    };
    let to = (from + length).min(count);
    let near = entries[random.below(count) as usize];
    let part = &mut entries[from as usize..to as usize];
    match random.below(8) {
        0 => random.shuffle(part),
        1 => part.reverse(),
        2 => part.sort_by_key(|entry| entry.first),
        3 => part.sort_by_key(|entry| entry.age),
        4 => {
            let counted = random.pick(&COUNTED);
            let mut age = || counted_by(counted, random.below(count));
            part.iter_mut().for_each(|entry| entry.age = age());
        }
        5 => part.iter_mut().for_each(|entry| entry.last = entry.first + random.below(1 << 20)),
        6 => part.iter_mut().for_each(|entry| {
            (entry.last, entry.first) = (near.first + (entry.last - entry.first), near.first)
        }),
        _ => part.iter_mut().for_each(|entry| {
            let first = random.below(1 << 20);
            (entry.last, entry.first) = (first + (entry.last - entry.first), first)
        }),
    }
}

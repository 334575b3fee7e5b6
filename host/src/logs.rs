//! Logs of the kinds that a restart may meet, for the tests and the benchmark.

use crate::ages::Ages;
use crate::model::runs::{Age, Run};
use crate::random::Random;

/// Logs of so many entries, at most 2,048, by name. None needs more than 1,024 runs.
pub fn kinds(count: u64) -> Vec<(&'static str, Vec<Run>)> {
    let mut random = Random::new(0);
    let run = |first, length, age| Run { first, last: first + length - 1, age };
    let number = |place| Age::new(1 + place, 1);
    let pass = |place| Age::new(1, 1 + place);
    let (rising, falling) = (|place| place / 4, |place| (count - 1 - place) / 4);
    let nested = |place, age| run(place, 10_000 - 2 * place, age);

    let disjoint = |place| run(10 * (place / 2) + 4 * (place % 2), 4, number(0));
    let chain = |place| run(3 * place, 3, number(0));
    let single = |place| run(place, 1, number(place / 2));
    let single_pass = |place| run(place, 1, pass(place / 2));
    let in_rising = |place| nested(place, number(rising(place)));
    let in_falling = |place| nested(place, number(falling(place)));
    let in_rising_pass = |place| nested(place, pass(rising(place)));
    let in_falling_pass = |place| nested(place, pass(falling(place)));
    let out_rising = |place| nested(count - 1 - place, number(rising(place)));
    let out_falling = |place| nested(count - 1 - place, number(falling(place)));
    let from_0_rising = |place| run(0, 1 + place, number(rising(place)));
    let from_0_falling = |place| run(0, 1 + place, number(falling(place)));
    let long_rising = |place| run(place, 10_000, number(rising(place)));
    let long_falling = |place| run(place, 10_000, number(falling(place)));
    let long_pass = |place| run(place, 10_000, pass(falling(place)));

    let all = |entry: &dyn Fn(u64) -> Run| -> Vec<Run> { (0..count).map(entry).collect() };
    let back = |entry: &dyn Fn(u64) -> Run| -> Vec<Run> { (0..count).rev().map(entry).collect() };
    let mut shuffled = |entry: &dyn Fn(u64) -> Run| {
        let mut entries = all(entry);
        random.shuffle(&mut entries);
        entries
    };
    let mut logs = vec![
        ("disjoint, rising", all(&disjoint)),
        ("disjoint, falling", back(&disjoint)),
        ("disjoint, shuffled", shuffled(&disjoint)),
        ("nested inwards, rising numbers", all(&in_rising)),
        ("nested inwards, falling numbers", all(&in_falling)),
        ("nested inwards, rising passes", all(&in_rising_pass)),
        ("nested inwards, falling passes", all(&in_falling_pass)),
        ("nested outwards, rising numbers", all(&out_rising)),
        ("nested outwards, falling numbers", all(&out_falling)),
        ("all from byte 0, rising numbers", all(&from_0_rising)),
        ("all from byte 0, falling numbers", all(&from_0_falling)),
        ("long overlaps, rising numbers", all(&long_rising)),
        ("long overlaps, falling numbers", all(&long_falling)),
        ("long overlaps, shuffled", shuffled(&long_falling)),
        ("long overlaps, shuffled passes", shuffled(&long_pass)),
        ("a chain of one number, rising", all(&chain)),
        ("a chain of one number, falling", back(&chain)),
        ("a chain of one number, shuffled", shuffled(&chain)),
        ("single bytes, rising", all(&single)),
        ("single bytes, falling", back(&single)),
        ("single bytes, shuffled", shuffled(&single)),
        ("single bytes, rising passes", all(&single_pass)),
    ];
    // Each of these has some 65,000 ages.
    let ages = Ages::up_to(1 << 8);
    for (name, longest) in [("drawn at random", 1 << 14), ("drawn at random, long", 1 << 40)] {
        let mut drawn =
            |_| run(random.below(1 << 20), 1 + random.below(longest), ages.draw(&mut random));
        logs.push((name, (0..count).map(&mut drawn).collect()));
    }
    logs
}

//! Runs of bytes with one age: when a map or a log is sound, and the map of a list of entries.

use super::valid_range;

/// A map has at most 1,024 runs.
pub const RUNS: usize = 1_024;
/// A log has at most 2,048 entries.
pub const ENTRIES: usize = 2_048;

/// A number and a pass. Age is judged by number first and pass second, as the fields stand.
#[derive(Clone, Copy, Debug, PartialEq, Eq, PartialOrd, Ord)]
pub struct Age {
    pub number: u64,
    pub pass: u64,
}

impl Age {
    /// The age of a byte in no run.
    pub const NONE: Age = Age::new(0, 0);

    pub const fn new(number: u64, pass: u64) -> Age {
        Age { number, pass }
    }
}

/// A run of a map, or an entry of a log.
#[derive(Clone, Copy, Debug, PartialEq, Eq)]
pub struct Run {
    pub first: u64,
    pub last: u64,
    pub age: Age,
}

impl Run {
    pub const fn new(first: u64, last: u64, number: u64, pass: u64) -> Run {
        Run { first, last, age: Age::new(number, pass) }
    }

    /// A valid range with number at least 1 and pass at least 1.
    fn valid(&self) -> bool {
        valid_range(self.first, self.last) && self.age.number >= 1 && self.age.pass >= 1
    }
}

/// Valid runs, rising, without common bytes; touching runs have different ages.
pub fn sound_map(runs: &[Run]) -> bool {
    let follows = |left: &Run, right: &Run| {
        left.last < right.first && (left.last + 1 < right.first || left.age != right.age)
    };
    sound_log(runs) && runs.windows(2).all(|pair| follows(&pair[0], &pair[1]))
}

/// Valid entries, in any relation to each other.
pub fn sound_log(entries: &[Run]) -> bool {
    entries.iter().all(Run::valid)
}

/// The map that gives each byte the greatest age of an entry over it.
/// Between two borders no entry begins or ends, so each such stretch has one age. Greater ages are
/// laid over smaller ones; none is left where no entry lies.
pub fn map_of(entries: &[Run]) -> Vec<Run> {
    let mut borders: Vec<u64> = entries.iter().flat_map(|e| [e.first, e.last + 1]).collect();
    borders.sort_unstable();
    borders.dedup();
    let border = |byte: u64| borders.binary_search(&byte).expect("each end is a border");
    let mut rising = entries.to_vec();
    rising.sort_by_key(|entry| entry.age);
    let mut ages = vec![Age::NONE; borders.len()];
    for entry in rising {
        ages[border(entry.first)..border(entry.last + 1)].fill(entry.age);
    }
    let mut map: Vec<Run> = Vec::new();
    for (stretch, &age) in borders.windows(2).zip(&ages).filter(|(_, &age)| age != Age::NONE) {
        let (first, last) = (stretch[0], stretch[1] - 1);
        match map.last_mut() {
            Some(run) if run.last + 1 == first && run.age == age => run.last = last,
            _ => map.push(Run { first, last, age }),
        }
    }
    map
}

/// The map's age of each byte of a stretch; a byte in no run has number 0 and pass 0.
pub fn ages_over(map: &[Run], first: u64, length: usize) -> Vec<Age> {
    let mut ages = vec![Age::NONE; length];
    let end = first + length as u64;
    for run in map {
        let from = run.first.max(first);
        let to = (run.last + 1).min(end);
        if from < to {
            ages[(from - first) as usize..(to - first) as usize].fill(run.age);
        }
    }
    ages
}

//! Runs in the bytes of a map or a log, and the pen that writes runs into scratch.

use super::numbers::{put_u64, u32_at, u64_at, zero};
use crate::model::runs::{ENTRIES, RUNS};
pub use crate::model::stripe::run_at as offset;
use crate::model::stripe::{LOG_BYTES, MAP_BYTES, RUN_BYTES};
use crate::model::EOF;

/// A stretch of bytes with one age; `end` is the byte after its last. The age is number and pass as they
/// stand in the bytes, read as one: so it is judged by number first and pass second.
#[derive(Clone, Copy)]
pub struct Run {
    pub first: u64,
    pub end: u64,
    pub age: u64,
}

impl Run {
    /// The run or entry at a place of a sound map or log.
    pub fn at(bytes: &[u8], place: usize) -> Run {
        let bytes = &bytes[offset(place)..][..RUN_BYTES];
        Run { first: u64_at(bytes, 0), end: u64_at(bytes, 8) + 1, age: u64_at(bytes, 16) }
    }

    pub fn put(&self, bytes: &mut [u8], place: usize) {
        let bytes = &mut bytes[offset(place)..][..RUN_BYTES];
        put_u64(bytes, 0, self.first);
        put_u64(bytes, 8, self.end - 1);
        put_u64(bytes, 16, self.age);
    }
}

/// The count of a sound map.
pub fn sound_map(map: &[u8]) -> Option<usize> {
    let count = count(map, MAP_BYTES, RUNS)?;
    let (runs, after) = map[4..].split_at(RUN_BYTES * count);
    let (mut sound, mut end, mut age) = (true, 0, 0);
    for run in runs.chunks_exact(RUN_BYTES) {
        let (first, last) = (u64_at(run, 0), u64_at(run, 8));
        let touches = (first == end) & (u64_at(run, 16) == age);
        sound &= valid(run) & (first >= end) & !touches;
        (end, age) = (last.wrapping_add(1), u64_at(run, 16));
    }
    (sound && zero(after)).then_some(count)
}

/// The count of a sound log. Bytes after the last entry may be anything.
pub fn sound_log(log: &[u8]) -> Option<usize> {
    let count = count(log, LOG_BYTES, ENTRIES)?;
    let entries = log[4..offset(count)].chunks_exact(RUN_BYTES);
    entries.fold(true, |sound, entry| sound & valid(entry)).then_some(count)
}

fn count(bytes: &[u8], length: usize, most: usize) -> Option<usize> {
    let count = (bytes.len() == length).then(|| u32_at(bytes, 0) as usize)?;
    (count <= most).then_some(count)
}

fn valid(run: &[u8]) -> bool {
    let (first, last) = (u64_at(run, 0), u64_at(run, 8));
    (first <= last) & (last <= EOF) & (u32_at(run, 16) != 0) & (u32_at(run, 20) != 0)
}

/// Writes rising runs into scratch of a map's size and joins touching ones of equal age.
/// Past 1,024 runs it only counts.
pub struct Pen {
    pub map: [u8; MAP_BYTES],
    pub count: usize,
    run: Run,
}

impl Pen {
    pub fn new() -> Pen {
        Pen { map: [0; MAP_BYTES], count: 0, run: Run { first: 0, end: 0, age: 0 } }
    }

    /// Appends a stretch; an empty one adds nothing.
    pub fn put(&mut self, first: u64, end: u64, age: u64) {
        if first < end {
            if self.run.end != first || self.run.age != age {
                self.lift();
                self.run.first = first;
                self.run.age = age;
            }
            self.run.end = end;
        }
    }

    /// Puts the run at hand down.
    pub fn lift(&mut self) {
        if self.run.age != 0 {
            if self.count < RUNS {
                self.run.put(&mut self.map, self.count);
            }
            self.count += 1;
        }
    }
}

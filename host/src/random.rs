//! A small seeded generator for the tests (splitmix64), and the name of a failing seed.

use std::ops::Range;

pub struct Random(u64);

impl Random {
    pub fn new(seed: u64) -> Random {
        Random(seed)
    }

    pub fn draw(&mut self) -> u64 {
        self.0 = self.0.wrapping_add(0x9e37_79b9_7f4a_7c15);
        let mut z = self.0;
        z = (z ^ (z >> 30)).wrapping_mul(0xbf58_476d_1ce4_e5b9);
        z = (z ^ (z >> 27)).wrapping_mul(0x94d0_49bb_1331_11eb);
        z ^ (z >> 31)
    }

    /// A number under the limit.
    pub fn below(&mut self, limit: u64) -> u64 {
        self.draw() % limit
    }

    /// True once in so many times.
    pub fn once_in(&mut self, times: u64) -> bool {
        self.below(times) == 0
    }

    /// One of these.
    pub fn pick<T: Copy>(&mut self, from: &[T]) -> T {
        from[self.below(from.len() as u64) as usize]
    }

    /// Puts these in any order.
    pub fn shuffle<T>(&mut self, items: &mut [T]) {
        for place in 0..items.len() {
            items.swap(place, self.below(place as u64 + 1) as usize);
        }
    }

    /// Fills the bytes with anything.
    pub fn fill(&mut self, bytes: &mut [u8]) {
        let mut parts = bytes.chunks_exact_mut(8);
        for part in &mut parts {
            part.copy_from_slice(&self.draw().to_be_bytes());
        }
        let rest = parts.into_remainder();
        if !rest.is_empty() {
            rest.copy_from_slice(&self.draw().to_be_bytes()[..rest.len()]);
        }
    }
}

/// Plays a test once for each seed; a failing one prints its seed.
pub fn for_seeds(seeds: Range<u64>, mut test: impl FnMut(&mut Random)) {
    for seed in seeds {
        let _named = Named(seed);
        test(&mut Random::new(seed));
    }
}

struct Named(u64);

impl Drop for Named {
    fn drop(&mut self) {
        if std::thread::panicking() {
            eprintln!("seed {0}, which the seeds {0}..{1} play alone", self.0, self.0 + 1);
        }
    }
}

//! Pieces with equal, smaller and greater ages, noted and written in any order.

use super::drawn;
use gilboreth_host::ages::Ages;
use gilboreth_host::beside::Beside;
use gilboreth_host::model::runs::map_of;
use gilboreth_host::model::stripe::{encode_log, encode_map, run_at, Piece};
use gilboreth_host::random::{for_seeds, Random};
use std::ops::Range;

/// Small images, where pieces meet often.
pub fn small(beside: &mut Beside, seeds: Range<u64>) {
    for_seeds(seeds, |random| {
        let image_length = 1 + random.below(64);
        play(beside, random, image_length, 24);
    });
}

/// Pieces of many bytes, stored by long stretches.
pub fn large(beside: &mut Beside, seeds: Range<u64>) {
    for_seeds(seeds, |random| {
        let image_length = 1 + random.below(20_000);
        play(beside, random, image_length, 8_000);
    });
}

/// Sixty calls. The map and the log begin apart from each other, as no run would leave them.
/// Some pieces are empty or go past the image, and some have an age that is refused with 15.
fn play(beside: &mut Beside, random: &mut Random, image_length: u64, longest: u64) {
    let ages = Ages::few(random);
    let count = random.below(12);
    let mut map = encode_map(&map_of(&drawn(random, count, image_length, longest, ages)));
    let count = random.below(12);
    let mut log = encode_log(&drawn(random, count, image_length, longest, ages));
    random.fill(&mut log[run_at(count as usize)..300]);
    let mut image = vec![0; image_length as usize];
    random.fill(&mut image);
    let mut bytes = vec![0; longest as usize];
    for _ in 0..60 {
        let first = random.below(image_length + 1);
        let mut length = random.below(longest);
        if !random.once_in(8) {
            length = length.min(image_length - first);
        }
        let refused = random.once_in(10);
        let age = if refused { ages.draw_refused(random) } else { ages.draw(random) };
        match random.below(16) {
            0..=7 => {
                let piece = Piece { first, bytes: length, age };
                beside.note(&mut map, &mut log, piece, image_length)
            }
            8..=14 => {
                let bytes = &mut bytes[..length as usize];
                random.fill(bytes);
                beside.write(&map, &mut image, Piece { first, bytes, age })
            }
            _ => beside.restart(&mut map, &log),
        };
    }
}

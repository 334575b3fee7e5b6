//! Maps and logs with flipped bits.

use super::{apart, drawn};
use gilboreth_host::ages::Ages;
use gilboreth_host::beside::Beside;
use gilboreth_host::model::runs::{map_of, Age, ENTRIES, RUNS};
use gilboreth_host::model::stripe::{encode_log, encode_map, run_at, Piece, LOG_BYTES, MAP_BYTES};
use gilboreth_host::random::{for_seeds, Random};
use std::ops::Range;

/// Two numbers and two passes.
const AGES: Ages = Ages::up_to(2);

/// One to three flipped bits, most often among the runs and entries.
pub fn flips(beside: &mut Beside, seeds: Range<u64>) {
    for_seeds(seeds, |random| {
        let ages = Ages::few(random);
        let runs = map_of(&drawn(random, 8, 40, 12, ages));
        let entries = drawn(random, 8, 40, 12, ages);
        for _ in 0..16 {
            let (mut map, mut log) = (encode_map(&runs), encode_log(&entries));
            let used = run_at(runs.len());
            let (damaged, used) =
                if random.once_in(2) { (&mut map, used) } else { (&mut log, run_at(8)) };
            for _ in 0..1 + random.below(3) {
                flip(random, damaged, used);
            }
            let (first, age) = (random.below(40), ages.draw(random));
            let length = 1 + random.below(40 - first);
            let bytes = &vec![0xEE; length as usize][..];
            beside.write(&map, &mut [0; 40], Piece { first, bytes, age });
            beside.restart(&mut vec![0xEE; MAP_BYTES], &log);
            beside.compact(&log, &mut vec![0xEE; LOG_BYTES]);
            beside.note(&mut map, &mut log, Piece { first, bytes: length, age }, 40);
        }
    });
}

fn flip(random: &mut Random, bytes: &mut [u8], used: usize) {
    let reach = if random.once_in(8) { bytes.len() } else { used + 4 };
    let at = random.below(reach as u64) as usize;
    bytes[at] ^= 1 << random.below(8);
}

/// Each bit of a map's and a log's count and first runs, one at a time.
pub fn each_bit(beside: &mut Beside) {
    let mut random = Random::new(0);
    let runs = map_of(&drawn(&mut random, 6, 40, 12, AGES));
    let entries = drawn(&mut random, 6, 40, 12, AGES);
    for bit in 0..8 * 150 {
        let (mut map, mut log) = (encode_map(&runs), encode_log(&entries));
        map[bit / 8] ^= 1 << (bit % 8);
        beside.write(&map, &mut [0; 40], Piece::new(3, b"piece", 2, 2));
        beside.note(&mut map, &mut log, Piece::new(3, 5, 2, 2), 40);
        let (mut map, mut log) = (encode_map(&runs), encode_log(&entries));
        log[bit / 8] ^= 1 << (bit % 8);
        beside.restart(&mut vec![0xEE; MAP_BYTES], &log);
        beside.compact(&log, &mut vec![0xEE; LOG_BYTES]);
        beside.note(&mut map, &mut log, Piece::new(3, 5, 2, 2), 40);
    }
}

/// Each byte after the runs of a map, one at a time: it must be zero.
pub fn each_byte_after(beside: &mut Beside) {
    let mut random = Random::new(0);
    let runs = map_of(&drawn(&mut random, 6, 40, 12, AGES));
    let (mut map, mut log) = (encode_map(&runs), encode_log(&runs));
    for at in run_at(runs.len())..MAP_BYTES {
        map[at] = 1 << random.below(8);
        assert_eq!(beside.note(&mut map, &mut log, Piece::new(3, 5, 2, 2), 40), 12, "byte {at}");
        assert_eq!(
            beside.write(&map, &mut [0; 40], Piece::new(3, b"piece", 2, 2)),
            12,
            "byte {at}"
        );
        map[at] = 0;
    }
}

/// Each run of a full map and each entry of a full log, one at a time, with number 0, and with pass 0.
pub fn each_run(beside: &mut Beside) {
    // The last bytes of the number and of the pass.
    let last_bytes = |place: usize| [run_at(place) + 19, run_at(place) + 23];
    let one = Age::new(1, 1);
    let (mut map, mut log) =
        (encode_map(&apart(RUNS as u64, one)), encode_log(&apart(ENTRIES as u64, one)));
    let mut new_log = vec![0xEE; LOG_BYTES];
    for at in (0..RUNS).flat_map(last_bytes) {
        map[at] = 0;
        assert_eq!(beside.note(&mut map, &mut log, Piece::new(0, 1, 1, 1), 1), 12, "byte {at}");
        assert_eq!(beside.write(&map, &mut [0], Piece::new(0, b"A", 1, 1)), 12, "byte {at}");
        map[at] = 1;
    }
    for at in (0..ENTRIES).flat_map(last_bytes) {
        log[at] = 0;
        assert_eq!(beside.note(&mut map, &mut log, Piece::new(0, 1, 1, 1), 1), 13, "byte {at}");
        assert_eq!(beside.restart(&mut map, &log), 13, "byte {at}");
        assert_eq!(beside.compact(&log, &mut new_log), 13, "byte {at}");
        log[at] = 1;
    }
}

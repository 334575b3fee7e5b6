//! Buffers one byte short and one long; numbers and passes, and the fields of a run, at their limits, one
//! past and near 2^64.

use super::apart;
use gilboreth_host::beside::Beside;
use gilboreth_host::model::runs::{Age, Run};
use gilboreth_host::model::stripe::{encode_log, encode_map, run_at, Piece, LOG_BYTES, MAP_BYTES};
use gilboreth_host::model::{EOF, HIGHEST};

const MOST: u64 = u64::MAX;
const FIRSTS: [u64; 11] = [0, 1, 9, 10, 11, EOF - 1, EOF, EOF + 1, EOF + 2, MOST - 1, MOST];
const LENGTHS: [u64; 11] = [0, 1, 2, 10, 11, EOF, EOF + 1, EOF + 2, EOF + 3, MOST - 1, MOST];
/// Numbers, and passes, whose highest is the same.
const COUNTS: [u64; 8] = [0, 1, 2, HIGHEST, HIGHEST + 1, HIGHEST + 2, HIGHEST + 3, MOST];
const IMAGE_LENGTHS: [u64; 10] = [0, 1, 10, 11, EOF - 1, EOF, EOF + 1, EOF + 2, MOST - 1, MOST];

/// Each of the counts as a number and as a pass, beside a 2.
fn ages() -> Vec<Age> {
    COUNTS.iter().flat_map(|&count| [Age::new(count, 2), Age::new(2, count)]).collect()
}

/// No runs, some at both ends, and one over all bytes.
fn lists() -> [Vec<Run>; 3] {
    let ends = vec![
        Run::new(0, 4, 2, 2),
        Run::new(5, 9, HIGHEST, 2),
        Run::new(EOF - 1, EOF - 1, 1, HIGHEST),
        Run::new(EOF, EOF, 2, 1),
    ];
    [vec![], ends, vec![Run::new(0, EOF, 1, 1)]]
}

/// Every choice of first, length, age and image length.
pub fn notes(beside: &mut Beside) {
    for list in lists() {
        for (first, bytes) in choices(&FIRSTS, &LENGTHS) {
            for (age, image_length) in choices(&ages(), &IMAGE_LENGTHS) {
                let (mut map, mut log) = (encode_map(&list), encode_log(&list));
                beside.note(&mut map, &mut log, Piece { first, bytes, age }, image_length);
            }
        }
    }
}

pub fn writes(beside: &mut Beside) {
    for map in lists().map(|list| encode_map(&list)) {
        for (first, age) in choices(&FIRSTS, &ages()) {
            for (length, image_length) in choices(&[0, 1, 2, 9, 10, 11], &[0, 1, 9, 10, 11]) {
                let mut image = vec![0; image_length];
                beside.write(&map, &mut image, Piece { first, bytes: &vec![0xEE; length], age });
            }
        }
    }
}

/// Every choice of number and pass for a run, and for a piece over the middle of it, up to the highest;
/// for the piece also past it. Where the piece can be noted, the two are entries of a log in both orders.
pub fn pairs(beside: &mut Beside) {
    let within = [1, 2, 255, 256, 65_536, 0x7FFF_FFFF, 0x8000_0000, HIGHEST - 1, HIGHEST];
    let past = [&within[..], &[0, HIGHEST + 1, HIGHEST + 2, HIGHEST + 256, MOST]].concat();
    for (number, pass) in choices(&within, &within) {
        let run = Run::new(0, 9, number, pass);
        for (number, pass) in choices(&past, &past) {
            let (mut map, mut log) = (encode_map(&[run]), encode_log(&[run]));
            let age = Age::new(number, pass);
            beside.write(&map, &mut [0; 10], Piece { first: 3, bytes: b"piece", age });
            if beside.note(&mut map, &mut log, Piece { first: 3, bytes: 5, age }, 10) == 0 {
                beside.write(&map, &mut [0; 10], Piece { first: 3, bytes: b"piece", age });
                let over = Run { first: 3, last: 7, age };
                for entries in [[run, over], [over, run]] {
                    beside.restart(&mut map, &encode_log(&entries));
                }
            }
        }
    }
}

/// Every choice of first, last, number and pass for the last run of a map and the last entry of a log.
pub fn fields(beside: &mut Beside) {
    let firsts = [0, 1, 19, 20, 30, EOF, EOF + 1, MOST];
    let lasts = [0, 1, 30, 39, EOF - 1, EOF, EOF + 1, MOST];
    let counts = [0, 1, 5, HIGHEST];
    for (first, last) in choices(&firsts, &lasts) {
        for (number, pass) in choices(&counts, &counts) {
            let runs = [Run::new(10, 19, 5, 5), Run::new(first, last, number, pass)];
            judged(beside, &encode_map(&runs), &encode_log(&runs));
        }
    }
}

/// Every count up to its limit and past it, over a full map and a full log, and over empty ones.
pub fn counts(beside: &mut Beside) {
    for count in [0, 1, 2, 1_023, 1_024, 1_025, 2_047, 2_048, 2_049, 65_536, 1 << 24, u32::MAX] {
        let age = Age::new(5, 5);
        let full = (encode_map(&apart(1_024, age)), encode_log(&apart(2_048, age)));
        for (mut map, mut log) in [full, (encode_map(&[]), encode_log(&[]))] {
            map[..4].copy_from_slice(&count.to_be_bytes());
            log[..4].copy_from_slice(&count.to_be_bytes());
            judged(beside, &map, &log);
        }
    }
}

/// A note, a write, a restart and a compaction on this map and this log; the note with a sound one beside,
/// too.
fn judged(beside: &mut Beside, map: &[u8], log: &[u8]) {
    beside.write(map, &mut [0; 40], Piece::new(10, b"piece", 5, 5));
    beside.restart(&mut vec![0xEE; MAP_BYTES], log);
    beside.compact(log, &mut vec![0xEE; LOG_BYTES]);
    beside.note(&mut map.to_vec(), &mut log.to_vec(), Piece::new(10, 5, 5, 6), 40);
    beside.note(&mut map.to_vec(), &mut encode_log(&[]), Piece::new(10, 5, 5, 6), 40);
    beside.note(&mut encode_map(&[]), &mut log.to_vec(), Piece::new(10, 5, 5, 6), 40);
}

/// Maps and logs of every wrong length near the right one, and of the lengths that they had without
/// passes, each with the other right and wrong.
pub fn lengths(beside: &mut Beside) {
    let wrong = [0, 3, 4, run_at(1), 20_484, 40_964];
    let map_lengths = [&wrong[..], &[MAP_BYTES - 1, MAP_BYTES, MAP_BYTES + 1, LOG_BYTES]].concat();
    let log_lengths = [&wrong[..], &[LOG_BYTES - 1, LOG_BYTES, LOG_BYTES + 1, MAP_BYTES]].concat();
    for list in lists() {
        for (map_length, log_length) in choices(&map_lengths, &log_lengths) {
            let (mut map, mut log) = (encode_map(&list), encode_log(&list));
            map.resize(map_length, 0);
            log.resize(log_length, 0);
            beside.write(&map, &mut [0; 10], Piece::new(3, b"piece", 2, 2));
            beside.write(&map, &mut [0; 10], Piece::new(3, b"", 0, 0));
            beside.note(&mut map.clone(), &mut log.clone(), Piece::new(3, 0, 0, 0), 10);
            beside.note(&mut map, &mut log, Piece::new(3, 5, 2, 3), 10);
            beside.restart(&mut map, &log);
        }
        for (old_length, new_length) in choices(&log_lengths, &log_lengths) {
            let mut log = encode_log(&list);
            log.resize(old_length, 0);
            beside.compact(&log, &mut vec![0xEE; new_length]);
        }
    }
}

fn choices<'a, A: Copy, B: Copy>(
    one: &'a [A],
    other: &'a [B],
) -> impl Iterator<Item = (A, B)> + 'a {
    one.iter().flat_map(|&a| other.iter().map(move |&b| (a, b)))
}

//! Passes. Each case is worked out by hand from the rules, as document 02 has them in request #103.

use crate::both::{compact, note, restart, write};
use crate::runs::runs;
use gilboreth_host::model::stripe::{Piece, LOG_BYTES, MAP_BYTES};

const HIGHEST: u64 = 4_294_967_295;

fn empty() -> (Vec<u8>, Vec<u8>) {
    (vec![0; MAP_BYTES], vec![0; LOG_BYTES])
}

/// The log's map, by a restart, and the log that it is compacted to.
fn rebuilt(log: &[u8]) -> (Vec<u8>, Vec<u8>) {
    let (mut map, mut new_log) = (vec![0xEE; MAP_BYTES], vec![0xEE; LOG_BYTES]);
    assert_eq!((restart(&mut map, log), compact(log, &mut new_log)), (0, 0));
    (map, new_log)
}

/// A holder flushes, keeps its lock and writes bytes 3 to 5 again. The first flush is sent once more and
/// arrives last: at once, after a restart, and after a restart from the compacted log.
#[test]
fn the_first_flush_is_sent_again_last() {
    let first = Piece::new(2, &b"aaaa"[..], 1, 1);
    let second = Piece::new(3, &b"bbb"[..], 1, 2);
    for lost in [false, true] {
        for compacted in [false, true] {
            let (mut map, mut log) = empty();
            let mut image = *b"..........";
            for piece in [first, second] {
                assert_eq!(note(&mut map, &mut log, piece.outline(), 10), 0);
                assert_eq!(write(&map, &mut image, piece), 0);
            }
            assert_eq!(&image, b"..abbb....");
            if compacted {
                log = rebuilt(&log).1;
            }
            if lost {
                map = rebuilt(&log).0;
            }
            assert_eq!(note(&mut map, &mut log, first.outline(), 10), 0);
            assert_eq!(write(&map, &mut image, first), 0);
            assert_eq!(&image, b"..abbb....");
            assert!(map == runs(MAP_BYTES, &[(2, 2, 1, 1), (3, 5, 1, 2)]));
            let entries = if compacted {
                [(2, 2, 1, 1), (3, 5, 1, 2), (2, 5, 1, 1)]
            } else {
                [(2, 5, 1, 1), (3, 5, 1, 2), (2, 5, 1, 1)]
            };
            assert!(log == runs(LOG_BYTES, &entries));
            assert!(rebuilt(&log).0 == map);
        }
    }
}

/// Both flushes are noted, the second one first, before either is written. Each is written twice, as after
/// a cut, the first flush last.
#[test]
fn both_are_noted_and_the_first_is_written_last() {
    let (mut map, mut log) = empty();
    let first = Piece::new(0, &b"aaaa"[..], 5, 1);
    let second = Piece::new(2, &b"bbbb"[..], 5, 2);
    for piece in [second, first] {
        assert_eq!(note(&mut map, &mut log, piece.outline(), 6), 0);
    }
    let mut image = *b"??????";
    for piece in [second, first, second, first] {
        assert_eq!(write(&map, &mut image, piece), 0);
    }
    assert_eq!(&image, b"aabbbb");
}

/// The older age of two, and the later: they differ in the pass alone, in the number alone, in both, and
/// in both against each other, where the greater number wins over any pass.
const AGES: [[(u64, u64); 2]; 14] = [
    [(1, 1), (1, 2)],
    [(1, 1), (2, 1)],
    [(1, 1), (2, 2)],
    [(1, 2), (2, 1)],
    [(1, HIGHEST), (2, 1)],
    [(1, HIGHEST - 1), (1, HIGHEST)],
    [(1, 0x7FFF_FFFF), (1, 0x8000_0000)],
    [(0x7FFF_FFFF, 9), (0x8000_0000, 8)],
    [(1, 255), (1, 256)],
    [(1, 65_535), (1, 65_536)],
    [(255, 65_536), (256, 1)],
    [(65_535, 65_536), (65_536, 65_535)],
    [(HIGHEST - 1, HIGHEST), (HIGHEST, 1)],
    [(HIGHEST, HIGHEST - 1), (HIGHEST, HIGHEST)],
];

/// The older piece lies on [0,5], the later on [3,8]. In whatever order they are noted and written, and
/// also after a restart, the common bytes are the later piece's.
#[test]
fn number_first_and_pass_second() {
    for [(number, pass), (later_number, later_pass)] in AGES {
        let older = Piece::new(0, &b"oooooo"[..], number, pass);
        let later = Piece::new(3, &b"llllll"[..], later_number, later_pass);
        let left = (0, 2, number as u32, pass as u32);
        let right = (3, 8, later_number as u32, later_pass as u32);
        for order in [[older, later], [later, older]] {
            let (mut map, mut log) = empty();
            for piece in order {
                assert_eq!(note(&mut map, &mut log, piece.outline(), 10), 0);
            }
            assert!(map == runs(MAP_BYTES, &[left, right]), "{order:?}");
            let (again, new_log) = rebuilt(&log);
            assert!(again == map && new_log == runs(LOG_BYTES, &[left, right]), "{order:?}");
            for order in [[older, later], [later, older]] {
                let mut image = *b"..........";
                for piece in order {
                    assert_eq!(write(&map, &mut image, piece), 0);
                }
                assert_eq!(&image, b"ooollllll.", "{order:?}");
            }
        }
    }
}

/// With the older piece alone noted the later is refused with 18, and changes nothing. With the later
/// alone noted the older is accepted, and stores nothing.
#[test]
fn smaller_and_greater_in_the_map() {
    for [(number, pass), (later_number, later_pass)] in AGES {
        let older = Piece::new(0, &b"oooo"[..], number, pass);
        let later = Piece::new(0, &b"llll"[..], later_number, later_pass);
        for (noted, written, answer) in [(older, later, 18), (later, older, 0)] {
            let (mut map, mut log) = empty();
            let mut image = *b"....";
            assert_eq!(note(&mut map, &mut log, noted.outline(), 4), 0);
            assert_eq!(write(&map, &mut image, written), answer, "{written:?} over {noted:?}");
            assert_eq!(&image, b"....");
        }
    }
}

/// Five runs that touch, in a lent map: only at the piece's own age is anything stored, and one byte of
/// a smaller age refuses the whole piece.
#[test]
fn a_write_over_touching_runs() {
    let map = [(0, 1, 2, 1), (2, 3, 2, 2), (4, 5, 2, 3), (6, 7, 3, 1), (8, 9, 1, 9)];
    let map = runs(MAP_BYTES, &map);
    for (first, length, number, pass, answer, expected) in [
        (0, 8, 2, 1, 0, b"AA........"),
        (2, 6, 2, 2, 0, b"..AA......"),
        (4, 4, 2, 3, 0, b"....AA...."),
        (6, 2, 3, 1, 0, b"......AA.."),
        (0, 10, 1, 9, 0, b"........AA"),
        (0, 10, 1, 8, 0, b".........."),
        (0, 10, 1, 10, 18, b".........."),
        (1, 3, 2, 2, 18, b".........."),
        (3, 3, 2, 3, 18, b".........."),
        (5, 2, 2, 4, 18, b".........."),
        (6, 2, 3, 2, 18, b".........."),
        (7, 2, 2, 1, 18, b".........."),
    ] {
        let mut image = *b"..........";
        let piece = vec![b'A'; length];
        let answered = write(&map, &mut image, Piece::new(first, &piece, number, pass));
        assert_eq!((answered, &image), (answer, expected), "{number} {pass}");
    }
}

/// A pass is 1 to 4,294,967,295, and no greater one is cut to 32 bits. 15 is given for number, pass or
/// both.
#[test]
fn passes_at_the_limits() {
    const MOST: u64 = u64::MAX;
    for (number, pass, answer) in [
        (1, 0, 15),
        (1, 1, 0),
        (1, 2, 0),
        (1, HIGHEST, 0),
        (1, HIGHEST + 1, 15),
        (1, HIGHEST + 2, 15),
        (1, 1 << 33, 15),
        (1, MOST - 1, 15),
        (1, MOST, 15),
        (0, 1, 15),
        (0, 0, 15),
        (HIGHEST, HIGHEST, 0),
        (HIGHEST, 0, 15),
        (HIGHEST + 1, 1, 15),
        (HIGHEST + 2, HIGHEST + 2, 15),
        (MOST, MOST, 15),
    ] {
        let (mut map, mut log) = empty();
        let answered = note(&mut map, &mut log, Piece::new(3, 4, number, pass), 10);
        assert_eq!(answered, answer, "{number} {pass}");
        let entry = (3, 6, number as u32, pass as u32);
        let expected = if answer == 0 { vec![entry] } else { vec![] };
        assert!(map == runs(MAP_BYTES, &expected) && log == runs(LOG_BYTES, &expected));

        // A map with the number's and the pass's low 32 bits, each at least 1.
        let map = runs(MAP_BYTES, &[(3, 6, (number as u32).max(1), (pass as u32).max(1))]);
        let mut image = *b"..........";
        let answered = write(&map, &mut image, Piece::new(3, b"AAAA", number, pass));
        assert_eq!(answered, answer, "{number} {pass}");
        assert_eq!(&image, if answer == 0 { b"...AAAA..." } else { b".........." });
    }
}

/// Touching pieces of one number join only in one pass.
#[test]
fn touching_runs_of_different_passes() {
    let (mut map, mut log) = empty();
    for (first, length, pass, expected) in [
        (0, 5, 1, &[(0, 4, 3, 1)][..]),
        (5, 5, 2, &[(0, 4, 3, 1), (5, 9, 3, 2)]),
        (10, 5, 1, &[(0, 4, 3, 1), (5, 9, 3, 2), (10, 14, 3, 1)]),
        (4, 1, 2, &[(0, 3, 3, 1), (4, 9, 3, 2), (10, 14, 3, 1)]),
        (5, 5, 1, &[(0, 3, 3, 1), (4, 9, 3, 2), (10, 14, 3, 1)]),
        (15, 1, 1, &[(0, 3, 3, 1), (4, 9, 3, 2), (10, 15, 3, 1)]),
        (0, 4, 2, &[(0, 9, 3, 2), (10, 15, 3, 1)]),
        (10, 6, 2, &[(0, 15, 3, 2)]),
    ] {
        assert_eq!(note(&mut map, &mut log, Piece::new(first, length, 3, pass), 20), 0);
        assert!(map == runs(MAP_BYTES, expected), "{expected:?}");
        let (again, new_log) = rebuilt(&log);
        assert!(again == map && new_log == runs(LOG_BYTES, expected), "{expected:?}");
    }
}

/// 1,024 runs of one number side by side, in passes 1 and 2 by turns; a pass that joins two of them
/// makes room.
#[test]
fn a_full_map_of_one_number() {
    let list: Vec<_> = (0..1_024).map(|place| (place, place, 7, 1 + place as u32 % 2)).collect();
    let (mut map, mut log) = (runs(MAP_BYTES, &list), runs(LOG_BYTES, &list));
    let (again, new_log) = rebuilt(&log);
    assert!(again == map && new_log == log);
    assert_eq!(note(&mut map, &mut log, Piece::new(1_024, 1, 7, 1), 2_000), 16);
    assert_eq!(note(&mut map, &mut log, Piece::new(1_024, 1, 7, 2), 2_000), 0);
    assert_eq!(note(&mut map, &mut log, Piece::new(1_025, 1, 7, 3), 2_000), 16);
    assert_eq!(note(&mut map, &mut log, Piece::new(1_022, 1, 7, 2), 2_000), 0);
    assert_eq!(note(&mut map, &mut log, Piece::new(1_025, 1, 7, 3), 2_000), 0);
    let mut expected = list[..1_021].to_vec();
    expected.extend([(1_021, 1_024, 7, 2), (1_025, 1_025, 7, 3)]);
    assert!(map == runs(MAP_BYTES, &expected));
}

/// A map is lent to note and write, a log to note, restart and compaction: these are the answers.
fn judged(map: &[u8], log: &[u8]) -> [u64; 5] {
    let (mut sound_map, mut sound_log) = empty();
    [
        note(&mut map.to_vec(), &mut sound_log, Piece::new(0, 1, 9, 9), 99),
        write(map, &mut [0; 99], Piece::new(50, b"A", 1, 1)),
        note(&mut sound_map, &mut log.to_vec(), Piece::new(0, 1, 9, 9), 99),
        restart(&mut vec![0xEE; MAP_BYTES], log),
        compact(log, &mut vec![0xEE; LOG_BYTES]),
    ]
}

/// A number and a pass of 0, and touching runs: what is sound in a map, and in a log. Byte 50 has age
/// (1, 1), so that a write there is accepted.
#[test]
fn sound_maps_and_logs() {
    let (sound, no_map, neither) = ([0; 5], [12, 12, 0, 0, 0], [12, 12, 13, 13, 13]);
    for (runs_before, expected) in [
        (&[(0, 4, 3, 1)][..], sound),
        (&[(0, 4, 3, 1), (5, 9, 3, 2)], sound),
        (&[(0, 4, 3, 2), (5, 9, 3, 1)], sound),
        (&[(0, 4, 3, 2), (5, 9, 4, 2)], sound),
        (&[(0, 4, 3, 2), (6, 9, 3, 2)], sound),
        (&[(0, 4, 3, u32::MAX), (5, 9, u32::MAX, 3)], sound),
        (&[(0, 4, 3, 1), (5, 9, 3, 1)], no_map),
        (&[(0, 4, 3, 2), (5, 9, 3, 2)], no_map),
        (&[(0, 4, 3, 1), (4, 9, 3, 2)], no_map),
        (&[(0, 4, 3, 1), (0, 4, 3, 2)], no_map),
        (&[(5, 9, 3, 1), (0, 4, 3, 2)], no_map),
        (&[(0, 4, 3, 0)], neither),
        (&[(0, 4, 0, 3)], neither),
        (&[(0, 4, 0, 0)], neither),
        (&[(0, 4, 3, 1), (5, 9, 3, 0)], neither),
        (&[(0, 4, 3, 0), (5, 9, 3, 1)], neither),
    ] {
        let list = [runs_before, &[(50, 50, 1, 1)]].concat();
        let answers = judged(&runs(MAP_BYTES, &list), &runs(LOG_BYTES, &list));
        assert_eq!(answers, expected, "{runs_before:?}");
    }
}

/// A map or log as it was before there were passes: each run first, last and number.
fn without_passes(length: usize, runs: &[(u64, u64, u32)]) -> Vec<u8> {
    let mut bytes = (runs.len() as u32).to_be_bytes().to_vec();
    for (first, last, number) in runs {
        bytes.extend([first.to_be_bytes(), last.to_be_bytes()].concat());
        bytes.extend(number.to_be_bytes());
    }
    bytes.resize(length, 0);
    bytes
}

/// Maps of 20,484 bytes and logs of 40,964, also empty ones, are refused by their length with 12 and 13:
/// as what is read, as the map that a restart fills, and as the second buffer of a compaction.
#[test]
fn maps_and_logs_without_passes() {
    for (runs, entries) in
        [(vec![], vec![]), (vec![(0, 4, 2), (5, 7, 3)], vec![(0, 5, 2), (4, 7, 1), (5, 7, 3)])]
    {
        let (map, log) = (without_passes(20_484, &runs), without_passes(40_964, &entries));
        assert_eq!(judged(&map, &log), [12, 12, 13, 13, 13]);
        let (mut new_map, mut new_log) = (map.clone(), log.clone());
        assert_eq!(restart(&mut new_map, &[0; LOG_BYTES]), 12);
        assert_eq!(compact(&[0; LOG_BYTES], &mut new_log), 13);
        assert!(new_map == map && new_log == log);
    }
}

/// With pass 1 after each number, and zeros up to 49,156 bytes, such a log goes on: what it has is of the
/// first pass, and a second pass wins over it.
#[test]
fn a_log_without_passes_goes_on() {
    let old_log = without_passes(40_964, &[(0, 5, 2), (4, 7, 1), (5, 7, 3)]);
    let mut log = old_log[..4].to_vec();
    for entry in old_log[4..4 + 3 * 20].chunks(20) {
        log.extend(entry);
        log.extend([0, 0, 0, 1]);
    }
    log.resize(49_156, 0);
    let mut map = rebuilt(&log).0;
    assert!(map == runs(MAP_BYTES, &[(0, 4, 2, 1), (5, 7, 3, 1)]));
    assert_eq!(note(&mut map, &mut log, Piece::new(1, 2, 2, 2), 10), 0);
    assert!(map == runs(MAP_BYTES, &[(0, 0, 2, 1), (1, 2, 2, 2), (3, 4, 2, 1), (5, 7, 3, 1)]));
}

//! The settled examples of document 01, whole: P1 to P11, and those that are run only. They are run by
//! the library and by the model; sessions also by the line program.

mod both;
mod piped;
mod runs;
mod transcript;

use both::{compact, note, restart, write};
use gilboreth_host::model::locks::{EVENTS_BYTES, TABLE_BYTES};
use gilboreth_host::model::stripe::{Piece, LOG_BYTES, MAP_BYTES};
use gilboreth_host::{EventBuffer, Log, Map, Table};
use runs::runs;
use transcript::{play, play_on};

/// A table written out by hand: handles issued, the last number of stripe 0, and the records, each
/// with a mark of 0.
fn table(issued: u32, number: u32, records: &[([u32; 6], u64, u64)]) -> Vec<u8> {
    let mut head = [0; 18];
    (head[0], head[1], head[17]) = (issued, number, records.len() as u32);
    let integers = |integers: &[u32]| integers.iter().flat_map(|n| n.to_be_bytes()).collect();
    let mut bytes: Vec<u8> = integers(&head);
    for (fields, first, last) in records {
        bytes.extend(integers(fields));
        bytes.extend(first.to_be_bytes());
        bytes.extend(last.to_be_bytes());
        bytes.extend([0; 4]);
    }
    bytes.resize(11_336, 0);
    bytes
}

#[test]
fn sizes() {
    assert_eq!((TABLE_BYTES, EVENTS_BYTES), (11_336, 11_268));
    assert_eq!((MAP_BYTES, LOG_BYTES), (24_580, 49_156));
    assert_eq!((Table::BYTES, EventBuffer::BYTES), (11_336, 11_268));
    assert_eq!((Map::BYTES, Log::BYTES), (24_580, 49_156));
}

/// P1 as document 01 has it, a call a line: the message, and what it is answered.
const P1: &str = include_str!("../../examples/p1.txt");

#[test]
fn p1() {
    let end = play(P1);
    // The PR lock of client 2 remains: handle, client, stripe, mode, state, number, first, last.
    assert!(end == table(3, 2, &[([3, 2, 0, 1, 1, 0], 0, 9)]));
}

/// The example session begins with P1.
#[test]
fn p1_in_the_example_session() {
    let messages = P1.lines().map(|call| call.split_whitespace().next().unwrap());
    let session = include_str!("../../examples/session.csv");
    assert!(session.lines().zip(messages).filter(|(line, message)| line == message).count() == 6);
}

#[test]
fn p2() {
    play(
        "
        R,0,0,2,0,9  =,0,1  G,1,0,0,2,1,1,0,EOF
        R,1,0,2,0,9  =,0,2  V,1,0,0,2,2,1,0,EOF
        R,2,0,2,0,9  =,0,3
        R,3,0,2,0,9  =,0,4
        A,0,1        =,0,1  G,2,1,0,2,3,2,0,9  G,3,2,0,2,3,3,0,9  G,4,3,0,2,1,4,0,EOF
        ",
    );
}

#[test]
fn p3() {
    let end = play(
        "
        R,0,0,2,0,9  =,0,1  G,1,0,0,2,1,1,0,EOF
        R,1,0,1,0,9  =,0,2  V,1,0,0,2,2,1,0,EOF
        A,0,1        =,0,1
        ",
    );
    // A is canceling, B waits with number 0.
    let a = ([1, 0, 0, 2, 3, 1], 0, 9_223_372_036_854_775_807);
    let b = ([2, 1, 0, 1, 0, 0], 0, 9);
    assert!(end == table(2, 1, &[a, b]));
}

/// A lock from byte 10 on keeps the BW lock at [0,9].
#[test]
fn p4() {
    play(
        "
        R,9,0,4,10,20  =,0,1   G,1,9,0,4,1,1,10,EOF
        R,0,0,3,0,9    =,0,2   G,2,0,0,3,1,2,0,9
        R,1,0,2,0,9    =,0,3   V,2,0,0,3,2,2,0,9
        A,0,2          =,0,2
        D,0,2          =,0,2   G,3,1,0,2,1,3,0,9
        D,0,2          =,11,0
        ",
    );
}

#[test]
fn p5() {
    play(
        "
        R,0,0,2,EOF,EOF                  =,0,1  G,1,0,0,2,1,1,EOF,EOF
        R,0,1,2,0,9223372036854775808    =,6,0
        R,0,1,2,EOF,9223372036854775808  =,6,0
        R,0,1,2,5,4                      =,6,0
        ",
    );
}

#[test]
fn p6_and_p7() {
    play(
        "
        R,63,0,1,0,0  =,0,1  G,1,63,0,1,1,0,0,EOF
        R,64,0,1,0,0  =,3,0
        R,0,16,0,0,0  =,4,0
        ",
    );
}

/// The pieces of P8, each of its lock's first pass.
const A: Piece<&[u8]> = Piece::new(0, b"AAAAAA", 2, 1);
const B: Piece<&[u8]> = Piece::new(4, b"BBBB", 1, 1);
const C: Piece<&[u8]> = Piece::new(5, b"CCC", 3, 1);
const ORDERS: [[Piece<&[u8]>; 3]; 6] =
    [[A, B, C], [A, C, B], [B, A, C], [B, C, A], [C, A, B], [C, B, A]];

/// The map and log after the pieces are noted in this order on an image of ten bytes.
fn noted(order: [Piece<&[u8]>; 3]) -> (Vec<u8>, Vec<u8>) {
    let (mut map, mut log) = (vec![0; MAP_BYTES], vec![0; LOG_BYTES]);
    for piece in order {
        assert_eq!(note(&mut map, &mut log, piece.outline(), 10), 0);
    }
    (map, log)
}

#[test]
fn p8() {
    for order in ORDERS {
        let (map, _) = noted(order);
        assert!(map == runs(24_580, &[(0, 4, 2, 1), (5, 7, 3, 1)]));
        for order in ORDERS {
            let mut image = *b"..........";
            for piece in order {
                assert_eq!(write(&map, &mut image, piece), 0);
            }
            assert_eq!(&image, b"AAAAACCC..");
        }
    }
}

/// The log keeps the entries in note order.
#[test]
fn p8_log() {
    let (_, log) = noted([A, B, C]);
    assert!(log == runs(49_156, &[(0, 5, 2, 1), (4, 7, 1, 1), (5, 7, 3, 1)]));
}

/// Compacted, it has the map's runs.
#[test]
fn p8_compacted() {
    for order in ORDERS {
        let (_, log) = noted(order);
        let mut new_log = vec![0xEE; LOG_BYTES];
        assert_eq!(compact(&log, &mut new_log), 0);
        assert!(new_log == runs(49_156, &[(0, 4, 2, 1), (5, 7, 3, 1)]));
    }
}

#[test]
fn p9() {
    let (mut map, mut log) = noted([A, B, C]);
    assert_eq!(note(&mut map, &mut log, Piece::new(8, 2, 3, 1), 10), 0);
    assert!(map == runs(24_580, &[(0, 4, 2, 1), (5, 9, 3, 1)]));
    let mut rebuilt = vec![0xEE; MAP_BYTES];
    assert_eq!(restart(&mut rebuilt, &log), 0);
    assert!(rebuilt == map);
}

#[test]
fn p10_and_p11() {
    let (mut map, mut log) = noted([A, B, C]);
    let mut image = *b"..........";
    assert_eq!(note(&mut map, &mut log, Piece::new(8, 2, 3, 1), 10), 0);
    assert_eq!(write(&map, &mut image, Piece::new(8, b"DD", 4, 1)), 18);
    assert_eq!(write(&map, &mut image, Piece::new(8, b"", 3, 1)), 14);
    assert_eq!(note(&mut map, &mut log, Piece::new(8, 0, 3, 1), 10), 14);
    assert_eq!(&image, b"..........");
}

/// PR locks never conflict, so 256 of them stand on one byte. A refused request takes no handle.
#[test]
fn run_only_records() {
    let mut table = vec![0; TABLE_BYTES];
    for handle in 1..=256 {
        let grant = format!("R,0,0,1,0,0 =,0,{handle} G,{handle},0,0,1,1,0,0,EOF");
        play_on(&mut table, &grant);
    }
    play_on(
        &mut table,
        "
        R,0,0,1,0,0  =,8,0
        F,0,100      =,0,100
        R,0,0,1,0,0  =,0,257  G,257,0,0,1,1,0,0,EOF
        R,0,0,1,0,0  =,8,0
        ",
    );
}

/// 1,024 pieces of one byte on every other byte need 1,024 runs.
#[test]
fn run_only_runs() {
    let (mut map, mut log) = (vec![0; MAP_BYTES], vec![0; LOG_BYTES]);
    let mut list: Vec<_> = (0..1_024).map(|place| (2 * place, 2 * place, 5, 1)).collect();
    for (first, ..) in &list {
        assert_eq!(note(&mut map, &mut log, Piece::new(*first, 1, 5, 1), 4_096), 0);
    }
    assert_eq!(note(&mut map, &mut log, Piece::new(2_048, 1, 5, 1), 4_096), 16);
    assert_eq!(note(&mut map, &mut log, Piece::new(1_000, 1, 5, 1), 4_096), 0);
    assert!(map == runs(24_580, &list));
    assert_eq!(note(&mut map, &mut log, Piece::new(1_000, 1, 6, 1), 4_096), 0);
    list[500].2 = 6;
    assert!(map == runs(24_580, &list));
    assert_eq!(note(&mut map, &mut log, Piece::new(1_000, 1, 6, 2), 4_096), 0);
    list[500].3 = 2;
    assert!(map == runs(24_580, &list));
}

//! Every refusal number is reached, in its order, and a refused call changes no byte.
//!
//! The calls are the library's and the model's. Each starts with every fault at once. The faults are
//! mended one by one, and each time the next number answers.

mod both;
mod runs;

use gilboreth_host::beside::Beside;
use gilboreth_host::calls::LIBRARY;
use gilboreth_host::entries::Item;
use gilboreth_host::model::list::LIST_EVENTS_BYTES as LIST_EVENTS;
use gilboreth_host::model::locks::{encode, Answer, EVENTS_BYTES as EVENTS};
use gilboreth_host::model::modes::{Mode, State};
use gilboreth_host::model::serve::Message;
use gilboreth_host::model::stripe::{Piece, LOG_BYTES as LOG, MAP_BYTES as MAP};
use gilboreth_host::model::table::{Record, Table};
use runs::runs;

/// A table of granted PR locks of client 0, with handles from 1.
fn table(issued: u64, records: u64) -> Vec<u8> {
    let record = |handle| Record {
        handle,
        client: 0,
        stripe: 0,
        mode: Mode::PR,
        state: State::Granted,
        number: 0,
        first: 0,
        last: 9,
        marked: false,
    };
    encode(&Table { issued, records: (1..=records).map(record).collect(), ..Table::default() })
}

/// With one byte too many, a table, map or log is of another length.
fn damaged(mut bytes: Vec<u8>) -> Vec<u8> {
    bytes.push(0);
    bytes
}

/// The message must be answered with this number; a refused one changes no byte.
fn answers(refusal: u64, table: &[u8], event_bytes: usize, message: Message) {
    let (mut new_table, mut events) = (table.to_vec(), vec![0xEE; event_bytes]);
    let answered = both::serve(&mut new_table, &mut events, message);
    assert_eq!(answered.refusal, refusal, "{message:?}");
    if refusal != 0 {
        assert_eq!(answered, Answer { refusal, handle: 0, events: 0 });
        assert!(new_table == table && events == vec![0xEE; event_bytes]);
    }
}

#[test]
fn request() {
    let message =
        |client, stripe, mode, first, last| Message::Request { client, stripe, mode, first, last };
    let full = table(4_294_967_295, 256);
    answers(1, &damaged(full.clone()), EVENTS - 1, message(64, 16, 0, 5, 4));
    answers(2, &damaged(full.clone()), EVENTS, message(64, 16, 0, 5, 4));
    answers(3, &full, EVENTS, message(64, 16, 0, 5, 4));
    answers(4, &full, EVENTS, message(63, 16, 0, 5, 4));
    answers(5, &full, EVENTS, message(63, 15, 0, 5, 4));
    answers(5, &full, EVENTS, message(63, 15, 5, 5, 4));
    answers(6, &full, EVENTS, message(63, 15, 4, 5, 4));
    answers(7, &full, EVENTS, message(63, 15, 4, 5, 5));
    answers(8, &table(4_294_967_294, 256), EVENTS, message(63, 15, 4, 5, 5));
    answers(0, &table(4_294_967_294, 255), EVENTS, message(63, 15, 4, 5, 5));
}

/// The whole list first, by its buffers and its length, and then each item. A refused list changes no
/// item, and a refused item none but itself.
#[test]
fn request_list() {
    let asked = |client, stripe, mode, first, last| Item {
        client,
        stripe,
        mode,
        first,
        last,
        refusal: 77,
        handle: 77,
        events: 77,
    };
    let answers = |refusal: u64, table: &[u8], event_bytes: usize, count: usize| {
        let (mut new_table, mut events) = (table.to_vec(), vec![0xEE; event_bytes]);
        let items = vec![asked(0, 1, 1, 0, 9); count];
        let mut new_items = items.clone();
        let listed = Beside::new(LIBRARY).list(&mut new_table, &mut events, &mut new_items);
        assert_eq!(listed.refusal, refusal);
        if refusal != 0 {
            assert_eq!(listed, Answer { refusal, handle: 0, events: 0 });
            assert!(new_table == table && events == vec![0xEE; event_bytes] && new_items == items);
        }
    };
    let empty = table(0, 0);
    answers(1, &damaged(empty.clone()), LIST_EVENTS - 1, 65);
    answers(1, &empty, EVENTS, 1);
    answers(2, &damaged(empty.clone()), LIST_EVENTS, 65);
    answers(2, &empty[..10_312], LIST_EVENTS, 65);
    answers(19, &empty, LIST_EVENTS, 65);
    answers(0, &empty, LIST_EVENTS, 64);
    answers(0, &empty, LIST_EVENTS, 0);

    let refused = |refusal: u64, table: &[u8], item: Item| {
        let (mut new_table, mut events) = (table.to_vec(), vec![0xEE; LIST_EVENTS]);
        let mut items = [item];
        let listed = Beside::new(LIBRARY).list(&mut new_table, &mut events, &mut items);
        assert_eq!((listed.refusal, items[0].refusal), (0, refusal));
        if refusal != 0 {
            assert_eq!(items[0], Item { refusal, handle: 0, events: 0, ..item });
            assert!(
                new_table == table && events[..4] == [0; 4] && events[4..] == vec![0xEE; 22_528]
            );
        }
    };
    let full = table(4_294_967_295, 256);
    refused(3, &full, asked(64, 16, 0, 5, 4));
    refused(4, &full, asked(63, 16, 0, 5, 4));
    refused(5, &full, asked(63, 15, 0, 5, 4));
    refused(5, &full, asked(63, 15, 5, 5, 4));
    refused(6, &full, asked(63, 15, 4, 5, 4));
    refused(7, &full, asked(63, 15, 4, 5, 5));
    refused(8, &table(4_294_967_294, 256), asked(63, 15, 4, 5, 5));
    refused(0, &table(4_294_967_294, 255), asked(63, 15, 4, 5, 5));
}

/// A message of client and handle.
type Naming = fn(u64, u64) -> Message;

/// Handle 1 is a granted PR lock of client 0, which only release accepts.
#[test]
fn acknowledge_downgrade_and_release() {
    let messages: [(Naming, u64); 3] = [
        (|client, handle| Message::Acknowledge { client, handle }, 11),
        (|client, handle| Message::Downgrade { client, handle }, 11),
        (|client, handle| Message::Release { client, handle }, 0),
    ];
    let table = table(2, 1);
    for (message, last) in messages {
        answers(1, &damaged(table.clone()), EVENTS - 1, message(64, 2));
        answers(2, &damaged(table.clone()), EVENTS, message(64, 2));
        answers(3, &table, EVENTS, message(64, 2));
        answers(9, &table, EVENTS, message(63, 2));
        answers(10, &table, EVENTS, message(63, 1));
        answers(last, &table, EVENTS, message(0, 1));
    }
}

/// Entries or runs of one byte, on every other byte.
fn apart(length: usize, count: u64) -> Vec<u8> {
    let list: Vec<_> = (0..count).map(|place| (2 * place, 2 * place, 1, 1)).collect();
    runs(length, &list)
}

/// A log with this many equal entries.
fn log(count: usize) -> Vec<u8> {
    runs(LOG, &vec![(0, 0, 1, 1); count])
}

/// An empty map and an empty log as long as they were without passes.
const OLD_MAP: &[u8] = &[0; 20_484];
const OLD_LOG: &[u8] = &[0; 40_964];

/// With 1,024 runs and 2,048 entries, a new run is 16 and an old one is 17.
#[test]
fn note() {
    let answers = |refusal: u64, map: &[u8], log: &[u8], piece: Piece<u64>, image_length| {
        let (mut new_map, mut new_log) = (map.to_vec(), log.to_vec());
        let answered = both::note(&mut new_map, &mut new_log, piece, image_length);
        assert_eq!(answered, refusal, "{piece:?}");
        assert_eq!(new_map == map, refusal != 0);
        assert_eq!(new_log == log, refusal != 0);
    };
    let (map, full, nearly) = (apart(MAP, 1_024), log(2_048), log(2_047));
    answers(12, &damaged(map.clone()), &damaged(full.clone()), Piece::new(2_048, 0, 0, 0), 4_096);
    answers(12, OLD_MAP, OLD_LOG, Piece::new(2_048, 0, 0, 0), 4_096);
    answers(12, &runs(MAP, &[(0, 0, 1, 0)]), OLD_LOG, Piece::new(2_048, 0, 0, 0), 4_096);
    answers(13, &map, &damaged(full.clone()), Piece::new(2_048, 0, 0, 0), 4_096);
    answers(13, &map, OLD_LOG, Piece::new(2_048, 0, 0, 0), 4_096);
    answers(13, &map, &runs(LOG, &[(0, 0, 1, 0)]), Piece::new(2_048, 0, 0, 0), 4_096);
    answers(14, &map, &full, Piece::new(2_048, 0, 0, 0), 4_096);
    answers(14, &map, &full, Piece::new(2_048, 1, 0, 0), 2_048);
    for (number, pass) in WRONG {
        answers(15, &map, &full, Piece::new(2_048, 1, number, pass), 4_096);
        answers(15, &map, &full, Piece::new(2_046, 1, number, pass), 4_096);
        answers(15, &map, &nearly, Piece::new(2_048, 1, number, pass), 4_096);
    }
    for (number, pass) in [(2, 1), (1, 2)] {
        answers(16, &map, &full, Piece::new(2_048, 1, number, pass), 4_096);
        answers(16, &map, &nearly, Piece::new(2_048, 1, number, pass), 4_096);
        answers(16, &map, &full, Piece::new(2_047, 1, number, pass), 4_096);
        answers(17, &map, &full, Piece::new(2_046, 1, number, pass), 4_096);
        answers(0, &map, &nearly, Piece::new(2_046, 1, number, pass), 4_096);
    }
}

/// Numbers and passes that are refused with 15.
const WRONG: [(u64, u64); 7] = [
    (0, 0),
    (0, 1),
    (1, 0),
    (4_294_967_296, 1),
    (1, 4_294_967_296),
    (1, 4_294_967_297),
    (4_294_967_297, 4_294_967_297),
];

#[test]
fn write() {
    let map = runs(MAP, &[(0, 5, 2, 2)]);
    let answers = |refusal: u64, map: &[u8], piece: Piece<&[u8]>, image: &[u8]| {
        let mut new_image = *b"......";
        assert_eq!(both::write(map, &mut new_image, piece), refusal, "{piece:?}");
        assert_eq!(new_image, image);
    };
    answers(12, &damaged(map.clone()), Piece::new(7, b"AB", 0, 0), b"......");
    answers(12, OLD_MAP, Piece::new(7, b"AB", 0, 0), b"......");
    answers(12, &runs(MAP, &[(0, 5, 2, 0)]), Piece::new(7, b"AB", 0, 0), b"......");
    answers(14, &map, Piece::new(7, b"AB", 0, 0), b"......");
    answers(14, &map, Piece::new(5, b"AB", 2, 0), b"......");
    answers(14, &map, Piece::new(4, b"", 0, 2), b"......");
    for (number, pass) in WRONG {
        answers(15, &map, Piece::new(4, b"AB", number, pass), b"......");
        answers(15, &runs(MAP, &[]), Piece::new(4, b"AB", number, pass), b"......");
    }
    answers(15, &map, Piece::new(4, b"AB", 4_294_967_298, 2), b"......");
    answers(15, &map, Piece::new(4, b"AB", 2, 4_294_967_298), b"......");
    answers(18, &map, Piece::new(4, b"AB", 3, 1), b"......");
    answers(18, &map, Piece::new(4, b"AB", 2, 3), b"......");
    answers(0, &map, Piece::new(4, b"AB", 2, 1), b"......");
    answers(0, &map, Piece::new(4, b"AB", 1, 3), b"......");
    answers(0, &map, Piece::new(4, b"AB", 2, 2), b"....AB");
}

/// Of the map only the length counts: 0xEE bytes are no sound map.
#[test]
fn restart() {
    let answers = |refusal: u64, length: usize, log: &[u8]| {
        let mut map = vec![0xEE; length];
        assert_eq!(both::restart(&mut map, log), refusal);
        assert_eq!(map == vec![0xEE; length], refusal != 0);
    };
    answers(12, MAP - 1, &damaged(apart(LOG, 1_025)));
    answers(12, MAP + 1, &damaged(apart(LOG, 1_025)));
    answers(12, OLD_MAP.len(), OLD_LOG);
    answers(13, MAP, &damaged(apart(LOG, 1_025)));
    answers(13, MAP, OLD_LOG);
    answers(13, MAP, &runs(LOG, &[(0, 0, 1, 1), (0, 0, 1, 0)]));
    answers(16, MAP, &apart(LOG, 1_025));
    answers(0, MAP, &apart(LOG, 1_024));
}

/// Either length and the old log's soundness are 13, before 16. The second buffer may hold anything.
#[test]
fn compact() {
    let answers = |refusal: u64, old_log: &[u8], length: usize| {
        let mut new_log = vec![0xEE; length];
        assert_eq!(both::compact(old_log, &mut new_log), refusal);
        assert_eq!(new_log == vec![0xEE; length], refusal != 0);
    };
    let unsound = runs(LOG, &[(0, 0, 1, 1), (0, 0, 1, 0)]);
    for length in [0, LOG - 1, LOG + 1, MAP, OLD_LOG.len()] {
        answers(13, &damaged(apart(LOG, 1_025)), length);
        answers(13, OLD_LOG, length);
        answers(13, &apart(LOG, 1_025), length);
        answers(13, &apart(LOG, 1_024), length);
        answers(13, &unsound, length);
    }
    answers(13, &[], LOG);
    answers(13, OLD_LOG, LOG);
    answers(13, &damaged(apart(LOG, 1_025)), LOG);
    answers(13, &apart(LOG, 1_025)[..LOG - 1], LOG);
    answers(13, &unsound, LOG);
    answers(16, &apart(LOG, 1_025), LOG);
    answers(16, &apart(LOG, 2_048), LOG);
    answers(0, &apart(LOG, 1_024), LOG);
    answers(0, &apart(LOG, 0), LOG);
}

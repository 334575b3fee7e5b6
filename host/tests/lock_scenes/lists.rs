//! Lists of marked requests.

use super::drawn;
use super::edges::{BYTES, CLIENTS, MODES, STRIPES};
use crate::messages::{crowded, message};
use crate::tables::{self, with, SOUND, UNSOUND};
use gilboreth_host::beside::Beside;
use gilboreth_host::entries::Item;
use gilboreth_host::model::list::{ITEMS, LIST_EVENTS_BYTES};
use gilboreth_host::model::locks::{
    decode, encode, event_at, Answer, EVENTS_BYTES, EVENT_BYTES, TABLE_BYTES,
};
use gilboreth_host::model::modes::{Mode, State};
use gilboreth_host::model::serve::Message;
use gilboreth_host::model::table::{Record, Table, RECORDS};
use gilboreth_host::model::{EOF, HIGHEST};
use gilboreth_host::random::{for_seeds, Random};
use std::ops::Range;

/// What a table had until records had marks.
const OLD_TABLE_BYTES: usize = 10_312;

/// An item with anything in its answer.
fn item(random: &mut Random, [client, stripe, mode, first, last]: [u64; 5]) -> Item {
    let (refusal, handle, events) = (random.draw(), random.draw(), random.draw());
    Item { client, stripe, mode, first, last, refusal, handle, events }
}

/// So many items on crowded places. One in so many has a number at a limit, past it, or far off.
fn items(random: &mut Random, count: u64, astray: u64) -> Vec<Item> {
    let odd = [0, 5, 15, 16, 63, 64, HIGHEST, HIGHEST + 2, EOF, EOF + 1, u64::MAX];
    let mut drawn = |_| {
        let mut asked = crowded(random);
        if random.once_in(astray) {
            asked[random.below(5) as usize] = random.pick(&odd);
        }
        item(random, asked)
    };
    (0..count).map(&mut drawn).collect()
}

/// How many items a list has: most are short, some are full, and some have one too many.
fn any_count(random: &mut Random) -> u64 {
    match random.below(16) {
        0 => random.pick(&[0, 63, 64, 65]),
        1 => random.below(66),
        _ => random.below(9),
    }
}

/// An event buffer with something in it, now and then longer than it has to be.
fn buffer(random: &mut Random) -> Vec<u8> {
    vec![0xEE; LIST_EVENTS_BYTES + random.pick(&[0, 0, 1, 50])]
}

/// Lists, event buffers and tables of every length that decides something: 1 comes before 2, and 2
/// before 19.
pub fn lengths(beside: &mut Beside) {
    let mut random = Random::new(0);
    for count in [0, 1, 2, 62, 63, 64, 65, 66, 128, 300] {
        for room in [
            0,
            3,
            4,
            event_at(1),
            EVENTS_BYTES,
            LIST_EVENTS_BYTES - 1,
            LIST_EVENTS_BYTES,
            LIST_EVENTS_BYTES + 1,
            2 * LIST_EVENTS_BYTES,
        ] {
            for length in [0, 4, OLD_TABLE_BYTES, TABLE_BYTES - 1, TABLE_BYTES, TABLE_BYTES + 1] {
                let mut table = tables::table();
                table.resize(length, 0);
                let mut items = items(&mut random, count, 20);
                let answer = beside.list(&mut table, &mut vec![0xEE; room], &mut items);
                let refusal = match (room < 22_532, length != 11_336, count > 64) {
                    (true, _, _) => 1,
                    (_, true, _) => 2,
                    (_, _, true) => 19,
                    _ => 0,
                };
                assert_eq!(answer.refusal, refusal, "{count} items, {room} and {length} bytes");
            }
        }
    }
}

/// Each rule of soundness broken alone is refused with 2, before the length of the list is judged; where it
/// just holds it isn't.
pub fn rules(beside: &mut Beside) {
    let mut random = Random::new(0);
    for count in [0, 1, 64, 65] {
        for (name, changes) in SOUND {
            let mut table = with(tables::table(), changes);
            let mut items = items(&mut random, count, 20);
            let answer = beside.list(&mut table, &mut buffer(&mut random), &mut items);
            assert_eq!(answer.refusal, if count > 64 { 19 } else { 0 }, "{name}");
        }
        for (name, changes) in UNSOUND {
            let mut table = with(tables::table(), changes);
            let mut items = items(&mut random, count, 20);
            let answer = beside.list(&mut table, &mut buffer(&mut random), &mut items);
            assert_eq!(answer.refusal, 2, "{name}");
        }
    }
}

/// The ways in which an item alone is bad: its refusal, the place of a number, and the number.
const BAD: [(u64, usize, u64); 13] = [
    (3, 0, 64),
    (3, 0, HIGHEST + 1),
    (3, 0, u64::MAX),
    (4, 1, 16),
    (4, 1, HIGHEST + 1),
    (5, 2, 0),
    (5, 2, 5),
    (5, 2, HIGHEST + 2),
    (6, 3, EOF),
    (6, 3, u64::MAX),
    (6, 4, 0),
    (6, 4, EOF + 1),
    (6, 4, u64::MAX),
];

/// A full list with one bad item, at each place and in each way: it alone is refused. Then lists of
/// which the first so many find a handle, or room in the table, and the others are refused with 7 or 8,
/// unless something else is wrong with them.
pub fn bad_items(beside: &mut Beside) {
    let mut random = Random::new(0);
    let apart = |place: u64| [place % 64, place % 3, 1 + place % 4, 10 * place + 1, 10 * place + 9];
    for place in 0..ITEMS {
        for (refusal, field, number) in BAD {
            let mut asked: Vec<[u64; 5]> = (0..ITEMS as u64).map(apart).collect();
            asked[place][field] = number;
            let mut items: Vec<Item> = asked.iter().map(|&a| item(&mut random, a)).collect();
            let mut events = buffer(&mut random);
            let answer = beside.list(&mut vec![0; TABLE_BYTES], &mut events, &mut items);
            assert_eq!(answer, Answer { refusal: 0, handle: 0, events: 63 });
            for (at, item) in items.iter().enumerate() {
                let answered = if at == place { refusal } else { 0 };
                assert_eq!(item.refusal, answered, "{place} {field} {number}");
            }
        }
    }
    let lock = |handle| Record {
        handle,
        client: 0,
        stripe: 15,
        mode: Mode::PR,
        state: State::Granted,
        number: 0,
        first: 0,
        last: 9,
        marked: false,
    };
    for left in 0..=ITEMS as u64 {
        let full = RECORDS as u64 - left;
        for (refusal, issued, records) in [(7, HIGHEST - left, 3), (8, 1_000, full)] {
            for astray in [false, true] {
                let records = (1..=records).map(lock).collect();
                let table = Table { issued, records, ..Table::default() };
                let mut asked: Vec<[u64; 5]> = (0..ITEMS as u64).map(apart).collect();
                let (other, field, number) = random.pick(&BAD);
                if astray {
                    asked[ITEMS - 1][field] = number;
                }
                let mut items: Vec<Item> = asked.iter().map(|&a| item(&mut random, a)).collect();
                beside.list(&mut encode(&table), &mut buffer(&mut random), &mut items);
                for (at, item) in items.iter().enumerate() {
                    let last = astray && at == ITEMS - 1;
                    let full = if (at as u64) < left { 0 } else { refusal };
                    assert_eq!(item.refusal, if last { other } else { full }, "{left} left");
                }
            }
        }
    }
}

/// Tables of 192 to 256 records, settled and not, and full lists: the first items that are accepted fill
/// the table, and the others are refused.
pub fn full_tables(beside: &mut Beside, seeds: Range<u64>) {
    for_seeds(seeds, |random| {
        let mut drawn = drawn::table(random, 600, 16, 3_000);
        drawn.issued = drawn.issued.min(HIGHEST - ITEMS as u64);
        assert_eq!(drawn.records.len(), RECORDS);
        for records in 192..=RECORDS {
            let mut table = drawn.clone();
            table.records.truncate(records);
            let ask = |random: &mut Random| {
                let (stripe, mode) = (random.below(16), 1 + random.below(4));
                let first = random.below(3_000);
                item(random, [7, stripe, mode, first, first + 20])
            };
            let mut items: Vec<Item> = (0..ITEMS).map(|_| ask(random)).collect();
            beside.list(&mut encode(&table), &mut buffer(random), &mut items);
            let accepted = items.iter().take_while(|item| item.refusal == 0).count();
            assert_eq!(accepted, RECORDS - records);
            assert!(items[accepted..].iter().all(|item| item.refusal == 8));
        }
    });
}

/// Lists of every length on tables that are drawn, most of them not settled, with marks on some of the
/// waiting requests. Some tables have flipped bits.
pub fn drawn_tables(beside: &mut Beside, seeds: Range<u64>) {
    for_seeds(seeds, |random| {
        let records = random.below(20);
        let table = encode(&drawn::table(random, records, 2, 24));
        for _ in 0..8 {
            let mut table = table.clone();
            if random.once_in(30) {
                table[random.below(1_000) as usize] ^= 1 << random.below(8);
            }
            let count = any_count(random);
            let mut items = items(random, count, 12);
            let mut events = buffer(random);
            if random.once_in(30) {
                events.truncate(LIST_EVENTS_BYTES - 1);
            }
            beside.list(&mut table, &mut events, &mut items);
        }
    });
}

/// A list beside the same requests one by one, each in a list of its own: they leave the same table, the
/// same answers and the same sequence of events.
pub fn one_by_one(beside: &mut Beside, seeds: Range<u64>) {
    for_seeds(seeds, |random| {
        let records = random.pick(&[0, 5, 20, 60]);
        let mut table = encode(&drawn::table(random, records, 2, 24));
        let mut listed_table = table.clone();
        let count = any_count(random).min(64);
        let mut items = items(random, count, 12);
        let mut listed_items = items.clone();
        let mut listed = vec![0xEE; LIST_EVENTS_BYTES + 9];
        let all = beside.list(&mut listed_table, &mut listed, &mut listed_items);

        let mut joined = Vec::new();
        for item in items.chunks_mut(1) {
            let mut events = vec![0xEE; LIST_EVENTS_BYTES];
            let one = beside.list(&mut table, &mut events, item);
            assert_eq!(one, Answer { refusal: 0, handle: 0, events: item[0].events });
            joined.extend(&events[event_at(0)..event_at(one.events as usize)]);
        }
        let events = (joined.len() / EVENT_BYTES) as u64;
        assert_eq!(all, Answer { refusal: 0, handle: 0, events });
        assert!(listed_table == table && listed_items == items);
        assert!(listed[..4] == (events as u32).to_be_bytes());
        assert!(listed[4..][..joined.len()] == joined);
        assert!(listed[4 + joined.len()..].iter().all(|&byte| byte == 0xEE));
    });
}

/// Sessions from the empty table, of messages and lists: who waits with a mark is granted by a later
/// message, and who waits without one by a later list.
pub fn sessions(beside: &mut Beside, seeds: Range<u64>, requests: u64) {
    for_seeds(seeds, |random| {
        let (mut bytes, mut events) = (vec![0; TABLE_BYTES], vec![0xEE; LIST_EVENTS_BYTES]);
        let mut table = Table::default();
        for _ in 0..80 {
            if random.once_in(3) {
                let most = random.pick(&[2, 4, 8, 64]);
                let count = 1 + random.below(most);
                let mut items = items(random, count, 40);
                beside.list(&mut bytes, &mut events, &mut items);
            } else {
                beside.serve(&mut bytes, &mut events, message(&table, random, requests));
            }
            table = decode(&bytes).unwrap();
        }
    });
}

/// PR requests of a stripe that wait though nothing is in their way, every other one marked.
fn waiting(range: impl Fn(u64) -> (u64, u64)) -> Vec<u8> {
    let request = |handle| Record {
        handle,
        client: handle % 64,
        stripe: 3,
        mode: Mode::PR,
        state: State::Waiting,
        number: 0,
        first: range(handle).0,
        last: range(handle).1,
        marked: handle % 2 == 0,
    };
    let records = (1..=192).map(request).collect();
    encode(&Table { issued: 192, records, ..Table::default() })
}

/// The most events of a list are 510. To revoke a lock takes a request that waits, and none that waits
/// at the end of a list was granted in it: so of 256 records at most 255 have two events. Here 192 PR
/// wait. The first of 63 PR items settles them, and a last item wants all of their bytes.
pub fn most_events(beside: &mut Beside) {
    let mut table = waiting(|handle| (handle, handle + 1_000));
    let ask = |mode: u64, place| Item::new(9, 3, mode, place, 2_000);
    let mut items: Vec<Item> = (0..63).map(|place| ask(1, place)).chain([ask(4, 0)]).collect();
    tells(beside, &mut table, &mut items, &[&[193][..], &[1; 62], &[255]].concat());
}

/// A list with more than 256 events before many of its items. 192 PR wait in two places. The first item
/// settles them, the second wants the first place, and 60 are granted on another stripe. Then the second
/// place is wanted, and at last the other stripe.
pub fn many_events(beside: &mut Beside) {
    let mut table = waiting(|handle| if handle > 96 { (1_000, 1_100) } else { (0, 100) });
    let ask = |stripe, mode: u64, first, last| Item::new(9, stripe, mode, first, last);
    let mut items = vec![ask(3, 1, 0, 100), ask(3, 4, 0, 100)];
    items.extend((0..60).map(|place| ask(4, 1, place, 100)));
    items.extend([ask(3, 4, 1_000, 1_100), ask(4, 4, 0, 100)]);
    tells(beside, &mut table, &mut items, &[&[193, 97][..], &[1; 60], &[96, 60]].concat());
}

/// Each item has so many events, and bytes after them all stay.
fn tells(beside: &mut Beside, table: &mut [u8], items: &mut [Item], events: &[u64]) {
    let all: u64 = events.iter().sum();
    let mut buffer = vec![0xEE; LIST_EVENTS_BYTES];
    let answer = beside.list(table, &mut buffer, items);
    assert_eq!(answer, Answer { refusal: 0, handle: 0, events: all });
    assert!(items.iter().map(|item| item.events).eq(events.iter().copied()));
    assert!(buffer[event_at(all as usize)..].iter().all(|&byte| byte == 0xEE));
}

/// Every choice of numbers for an item, eight to a list, each list on the same table.
pub fn numbers(beside: &mut Beside) {
    let mut random = Random::new(0);
    let mut asked = Vec::new();
    for (client, stripe) in CLIENTS.into_iter().flat_map(|c| STRIPES.map(|s| (c, s))) {
        for (mode, first) in MODES.into_iter().flat_map(|m| BYTES.map(|f| (m, f))) {
            asked.extend(BYTES.map(|last| [client, stripe, mode, first, last]));
        }
    }
    random.shuffle(&mut asked);
    for asked in asked.chunks(8) {
        let mut items: Vec<Item> = asked.iter().map(|&a| item(&mut random, a)).collect();
        beside.list(&mut tables::table(), &mut buffer(&mut random), &mut items);
    }
}

/// An empty list, and one of which every item is refused, leave a table that is not settled as it is, and
/// write the count 0.
pub fn nothing_accepted(beside: &mut Beside) {
    let table = tables::table();
    let release = Message::Release { client: 5, handle: 7 };
    let settled = beside.serve(&mut table.clone(), &mut vec![0; EVENTS_BYTES], release);
    assert!(settled.events > 0, "this table is not settled");
    for count in 0..=ITEMS {
        let bad = |place: usize| {
            let mut asked = [0, 0, 1, 1, 9];
            let (_, field, number) = BAD[place % BAD.len()];
            asked[field] = number;
            asked
        };
        let mut random = Random::new(0);
        let mut items: Vec<Item> = (0..count).map(|place| item(&mut random, bad(place))).collect();
        let (mut lent, mut events) = (table.clone(), vec![0xEE; LIST_EVENTS_BYTES]);
        let answer = beside.list(&mut lent, &mut events, &mut items);
        assert_eq!(answer, Answer { refusal: 0, handle: 0, events: 0 });
        assert!(lent == table && events[..4] == [0; 4]);
        assert!(events[4..].iter().all(|&byte| byte == 0xEE));
    }
}

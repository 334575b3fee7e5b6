//! Damaged tables: each rule of soundness broken alone, and flipped bits.

use super::drawn;
use crate::messages::message;
use crate::tables::{table, with, END, SOUND, UNSOUND};
use gilboreth_host::beside::Beside;
use gilboreth_host::model::locks::{encode, record_at, EVENTS_BYTES, TABLE_BYTES};
use gilboreth_host::model::modes::{Mode, State};
use gilboreth_host::model::serve::Message;
use gilboreth_host::model::table::{Record, Table, RECORDS};
use gilboreth_host::random::{for_seeds, Random};
use std::ops::Range;

/// One message of each kind; on the table as it is, only the downgrade is refused.
const MESSAGES: [Message; 4] = [
    Message::Request { client: 5, stripe: 1, mode: 1, first: 5, last: 10 },
    Message::Acknowledge { client: 5, handle: 4 },
    Message::Downgrade { client: 5, handle: 2 },
    Message::Release { client: 5, handle: 2 },
];

/// Each rule broken alone is refused with 2; where it just holds it isn't.
pub fn rules(beside: &mut Beside) {
    let mut events = vec![0xEE; EVENTS_BYTES];
    for message in MESSAGES {
        for (name, changes) in SOUND {
            let mut table = with(table(), changes);
            assert_ne!(beside.serve(&mut table, &mut events, message).refusal, 2, "{name}");
        }
        for (name, changes) in UNSOUND {
            let mut table = with(table(), changes);
            assert_eq!(beside.serve(&mut table, &mut events, message).refusal, 2, "{name}");
        }
    }
}

/// Each bit up to the end of the records and a little further, one at a time.
pub fn each_bit(beside: &mut Beside) {
    let mut events = vec![0xEE; EVENTS_BYTES];
    for bit in 0..8 * (END + 8) {
        for message in MESSAGES {
            let mut table = table();
            table[bit / 8] ^= 1 << (bit % 8);
            beside.serve(&mut table, &mut events, message);
        }
    }
}

/// Each byte after the records, one at a time: it must be zero.
pub fn each_byte_after(beside: &mut Beside) {
    let mut random = Random::new(0);
    let mut events = vec![0xEE; EVENTS_BYTES];
    let mut table = table();
    for at in END..TABLE_BYTES {
        table[at] = 1 << random.below(8);
        let message = random.pick(&MESSAGES);
        assert_eq!(beside.serve(&mut table, &mut events, message).refusal, 2, "byte {at}");
        table[at] = 0;
    }
}

/// One to three flipped bits in tables drawn at random.
pub fn flips(beside: &mut Beside, seeds: Range<u64>) {
    for_seeds(seeds, |random| {
        let table = drawn::table(random, 12, 2, 24);
        let used = record_at(table.records.len()) as u64;
        let mut events = vec![0xEE; EVENTS_BYTES];
        for _ in 0..16 {
            let mut bytes = encode(&table);
            for _ in 0..1 + random.below(3) {
                let reach = if random.once_in(16) { TABLE_BYTES as u64 } else { used + 4 };
                bytes[random.below(reach) as usize] ^= 1 << random.below(8);
            }
            beside.serve(&mut bytes, &mut events, message(&table, random, 3));
        }
    });
}

/// A full table of NBW locks that are apart. Two records drawn from it get a common byte or a common
/// number, and now and then are of different stripes, where that is no fault.
pub fn pairs(beside: &mut Beside, seeds: Range<u64>) {
    let lock = |handle| Record {
        handle,
        client: 0,
        stripe: 0,
        mode: Mode::NBW,
        state: State::Granted,
        number: handle,
        first: 10 * handle,
        last: 10 * handle + 5,
        marked: false,
    };
    let mut full =
        Table { issued: 256, records: (1..=256).map(lock).collect(), ..Table::default() };
    full.numbers[..2].fill(256);
    let mut events = vec![0xEE; EVENTS_BYTES];
    for_seeds(seeds, |random| {
        let mut table = full.clone();
        let (one, other) = (random.below(256) as usize, random.below(256) as usize);
        if random.once_in(2) {
            table.records[one].number = table.records[other].number;
        } else {
            table.records[one].first = table.records[other].last;
            table.records[one].last = table.records[other].last;
        }
        table.records[one].stripe = u64::from(random.once_in(4));
        let sound = one == other || table.records[one].stripe == 1;
        let release = Message::Release { client: 0, handle: 1 + random.below(256) };
        let answer = beside.serve(&mut encode(&table), &mut events, release);
        assert_eq!(answer.refusal, if sound { 0 } else { 2 }, "{one} and {other}");
    });
}

/// Each record of a full table, one at a time, with a client that there isn't.
pub fn each_record(beside: &mut Beside) {
    let mut full = vec![0; TABLE_BYTES];
    let mut events = vec![0xEE; EVENTS_BYTES];
    for _ in 0..RECORDS {
        beside.serve(&mut full, &mut events, MESSAGES[0]);
    }
    for client_at in (0..RECORDS).map(|place| record_at(place) + 7) {
        full[client_at] += 64;
        let answer = beside.serve(&mut full, &mut events, MESSAGES[3]);
        assert_eq!(answer.refusal, 2, "byte {client_at}");
        full[client_at] -= 64;
    }
}

//! Tables of 256 records, and tables with the highest handles.

use super::drawn;
use crate::messages::message;
use gilboreth_host::beside::Beside;
use gilboreth_host::model::locks::{decode, encode, Answer, EVENTS_BYTES, TABLE_BYTES};
use gilboreth_host::model::serve::Message;
use gilboreth_host::model::table::{Table, RECORDS};
use gilboreth_host::model::HIGHEST;
use gilboreth_host::random::{for_seeds, Random};
use std::ops::Range;

/// A 257th record is refused with 8, and after one release it is accepted.
pub fn full_tables(beside: &mut Beside, seeds: Range<u64>) {
    for_seeds(seeds, |random| {
        let (mut table, mut events) = (vec![0; TABLE_BYTES], vec![0; EVENTS_BYTES]);
        let mut request = |random: &mut Random, table: &mut [u8], beside: &mut Beside| {
            let message = message(&Table::default(), random, 10);
            beside.serve(table, &mut events, message).refusal
        };
        for _ in 0..RECORDS {
            assert_eq!(request(random, &mut table, beside), 0);
        }
        for _ in 0..4 {
            assert_eq!(request(random, &mut table, beside), 8);
            let record = random.pick(&decode(&table).unwrap().records);
            let release = Message::Release { client: record.client, handle: record.handle };
            let released = beside.serve(&mut table, &mut vec![0; EVENTS_BYTES], release);
            assert_eq!(released.refusal, 0);
            assert_eq!(request(random, &mut table, beside), 0);
        }
    });
}

/// With 4,294,967,294 handles issued there is one more to take, with 4,294,967,295 there is none.
/// The messages that name a handle go on.
pub fn highest_handles(beside: &mut Beside, seeds: Range<u64>) {
    for_seeds(seeds, |random| {
        let records = random.below(20);
        let mut table = drawn::table(random, records, 2, 24);
        table.issued = HIGHEST - 1;
        let (mut bytes, mut events) = (encode(&table), vec![0; EVENTS_BYTES]);
        let asked = message(&Table::default(), random, 10);
        let last = beside.serve(&mut bytes, &mut events, asked);
        assert_eq!(last, Answer { refusal: 0, handle: HIGHEST, events: last.events });
        for _ in 0..8 {
            assert_eq!(beside.serve(&mut bytes, &mut events, asked).refusal, 7);
            let table = decode(&bytes).unwrap();
            if !table.records.is_empty() {
                let named = message(&table, random, 0);
                beside.serve(&mut bytes, &mut events, named);
            }
        }
    });
}

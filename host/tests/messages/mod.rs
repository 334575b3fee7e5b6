//! Messages at random, for sessions with few stripes and crowded ranges.

use gilboreth_host::model::serve::Message;
use gilboreth_host::model::table::{Record, Table};
use gilboreth_host::model::EOF;
use gilboreth_host::random::Random;

/// Client, stripe, mode, first and last of a request on a crowded place.
pub fn crowded(random: &mut Random) -> [u64; 5] {
    let (client, stripe, mode) = (random.below(4), random.below(2), 1 + random.below(4));
    let start = if random.once_in(4) { EOF - 24 } else { 0 };
    let first = start + random.below(24);
    [client, stripe, mode, first, (first + random.below(8)).min(EOF)]
}

/// A request on a crowded place, so many times in ten, or a message on some record, most often a
/// held one, and now and then by another client.
pub fn message(table: &Table, random: &mut Random, requests: u64) -> Message {
    if table.records.is_empty() || random.below(10) < requests {
        let [client, stripe, mode, first, last] = crowded(random);
        return Message::Request { client, stripe, mode, first, last };
    }
    let any = random.once_in(4) || table.records.iter().all(Record::waiting);
    let mut records: Vec<&Record> = table.records.iter().collect();
    records.retain(|record| any || record.held());
    let Record { handle, mut client, .. } = *random.pick(&records);
    if random.once_in(20) {
        client = random.below(4);
    }
    match random.below(4) {
        0 | 1 => Message::Acknowledge { client, handle },
        2 => Message::Downgrade { client, handle },
        _ => Message::Release { client, handle },
    }
}

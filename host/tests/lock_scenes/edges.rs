//! Buffers one byte short and one long; numbers, and the fields of a table, at their limits, one past
//! and far off.

use crate::tables::{table, with, END, RECORDS};
use gilboreth_host::beside::Beside;
use gilboreth_host::model::locks::{event_at, record_at, EVENTS_BYTES, SHOWN_BYTES, TABLE_BYTES};
use gilboreth_host::model::serve::Message;
use gilboreth_host::model::{EOF, HIGHEST};

const MOST: u64 = u64::MAX;
const FAR: u64 = HIGHEST + 1;
pub const CLIENTS: [u64; 7] = [0, 5, 63, 64, FAR, FAR + 5, MOST];
pub const STRIPES: [u64; 7] = [0, 1, 15, 16, FAR, FAR + 1, MOST];
pub const MODES: [u64; 9] = [0, 1, 2, 3, 4, 5, FAR + 1, FAR + 4, MOST];
pub const BYTES: [u64; 10] = [0, 9, 10, 50, EOF - 1, EOF, EOF + 1, EOF + 2, MOST - 1, MOST];
const HANDLES: [u64; 11] = [0, 1, 2, 4, 6, 7, 8, HIGHEST, FAR, FAR + 1, MOST];

/// Every choice of numbers for the four messages, each on the same table.
pub fn numbers(beside: &mut Beside) {
    let mut messages = Vec::new();
    for client in CLIENTS {
        for (stripe, mode) in
            STRIPES.into_iter().flat_map(|stripe| MODES.map(|mode| (stripe, mode)))
        {
            for (first, last) in BYTES.into_iter().flat_map(|first| BYTES.map(|last| (first, last)))
            {
                messages.push(Message::Request { client, stripe, mode, first, last });
            }
        }
        messages.extend(HANDLES.into_iter().flat_map(|handle| naming(client, handle)));
    }
    let mut events = vec![0xEE; EVENTS_BYTES];
    for message in messages {
        beside.serve(&mut table(), &mut events, message);
    }
}

fn naming(client: u64, handle: u64) -> [Message; 3] {
    [
        Message::Acknowledge { client, handle },
        Message::Downgrade { client, handle },
        Message::Release { client, handle },
    ]
}

/// Each integer of a record's six, each half of its range, its mark, and each integer before the records,
/// at 0, at its limits and past them, one at a time; a range also as a whole.
pub fn fields(beside: &mut Beside) {
    let integers = [0, 1, 2, 3, 4, 5, 6, 7, 8, 15, 16, 63, 64, 255, 256, 257, 0x7FFF_FFFF];
    let mut tables = Vec::new();
    for at in (0..END).step_by(4) {
        for integer in integers.into_iter().chain([0x8000_0000, u32::MAX - 1, u32::MAX]) {
            tables.push(with(table(), &[(at, integer)]));
        }
    }
    for at in (0..RECORDS).map(record_at) {
        for (first, last) in BYTES.into_iter().flat_map(|first| BYTES.map(|last| (first, last))) {
            let mut table = table();
            table[at + 24..at + 32].copy_from_slice(&first.to_be_bytes());
            table[at + 32..at + SHOWN_BYTES].copy_from_slice(&last.to_be_bytes());
            tables.push(table);
        }
    }
    let mut events = vec![0xEE; EVENTS_BYTES];
    let request = Message::Request { client: 5, stripe: 0, mode: 2, first: 0, last: 9 };
    for table in tables {
        for message in naming(5, 4).into_iter().chain([request]) {
            beside.serve(&mut table.clone(), &mut events, message);
        }
    }
}

/// Tables and event buffers of other lengths. Bytes after the events stay in a longer buffer.
pub fn lengths(beside: &mut Beside) {
    let table_lengths =
        [0, 3, 4, record_at(0), TABLE_BYTES - 1, TABLE_BYTES, TABLE_BYTES + 1, EVENTS_BYTES];
    let event_lengths =
        [0, 3, 4, event_at(1), EVENTS_BYTES - 1, EVENTS_BYTES, EVENTS_BYTES + 1, 20_000];
    let request = |client| Message::Request { client, stripe: 0, mode: 2, first: 0, last: 9 };
    let messages = [naming(5, 4), naming(64, 0), [request(5), request(63), request(64)]].concat();
    for table_length in table_lengths {
        for event_length in event_lengths {
            for &message in &messages {
                let mut table = table();
                table.resize(table_length, 0);
                beside.serve(&mut table, &mut vec![0xEE; event_length], message);
            }
        }
    }
}

//! The lock table of one server on bytes: the four messages as the C entries have them.

use super::modes::{Mode, State};
use super::refusal::{self, refuse, Refusal};
use super::serve::{serve, Accepted, Event, Message};
use super::table::{Record, Table, RECORDS, STRIPES};
use super::xdr::{array, hyper, put_array, put_hyper, put_unsigned, unsigned, zero};

/// Handles issued, the last numbers, then the array of records, whose count stands first.
const NUMBERS_AT: usize = 4;
pub const RECORDS_AT: usize = NUMBERS_AT + 4 * STRIPES;
pub const SHOWN_BYTES: usize = 40;
/// A record is what is shown of it, and then its mark.
pub const RECORD_BYTES: usize = SHOWN_BYTES + 4;
/// An event is its kind and then what is shown of its record.
pub const EVENT_BYTES: usize = 4 + SHOWN_BYTES;

/// The exact length of a table.
pub const TABLE_BYTES: usize = RECORDS_AT + 4 + RECORD_BYTES * RECORDS;
/// The least length of an event buffer: at most one event for each record.
pub const EVENTS_BYTES: usize = 4 + EVENT_BYTES * RECORDS;

/// Where the last number of a stripe, and where a record stands in a table; where an event stands in
/// an event buffer. The place after the last one is where they end.
pub const fn number_at(stripe: usize) -> usize {
    NUMBERS_AT + 4 * stripe
}
pub const fn record_at(place: usize) -> usize {
    RECORDS_AT + 4 + RECORD_BYTES * place
}
pub const fn event_at(place: usize) -> usize {
    4 + EVENT_BYTES * place
}

/// What a message answers.
#[derive(Clone, Copy, Debug, PartialEq, Eq)]
pub struct Answer {
    pub refusal: u64,
    pub handle: u64,
    pub events: u64,
}

pub fn request(
    table: &mut [u8],
    events: &mut [u8],
    client: u64,
    stripe: u64,
    mode: u64,
    first: u64,
    last: u64,
) -> Answer {
    answer(table, events, Message::Request { client, stripe, mode, first, last })
}

pub fn acknowledge(table: &mut [u8], events: &mut [u8], client: u64, handle: u64) -> Answer {
    answer(table, events, Message::Acknowledge { client, handle })
}

pub fn downgrade(table: &mut [u8], events: &mut [u8], client: u64, handle: u64) -> Answer {
    answer(table, events, Message::Downgrade { client, handle })
}

pub fn release(table: &mut [u8], events: &mut [u8], client: u64, handle: u64) -> Answer {
    answer(table, events, Message::Release { client, handle })
}

/// Serves any of the four messages.
pub fn answer(table: &mut [u8], events: &mut [u8], message: Message) -> Answer {
    match accept(table, events, message) {
        Ok(Accepted { handle, events }) => {
            Answer { refusal: 0, handle, events: events.len() as u64 }
        }
        Err(refusal) => Answer { refusal, handle: 0, events: 0 },
    }
}

/// Changes the buffers only when every refusal is excluded.
fn accept(table: &mut [u8], events: &mut [u8], message: Message) -> Result<Accepted, Refusal> {
    refuse(refusal::EVENT_BUFFER, events.len() < EVENTS_BYTES)?;
    let mut decoded = decode(table).ok_or(refusal::TABLE)?;
    let accepted = serve(&mut decoded, message)?;
    table.copy_from_slice(&encode(&decoded));
    put_array(events, EVENT_BYTES, &accepted.events, put_event);
    Ok(accepted)
}

/// The table in these bytes, unless they are of another length or not sound.
pub fn decode(bytes: &[u8]) -> Option<Table> {
    if bytes.len() != TABLE_BYTES {
        return None;
    }
    let issued = unsigned(bytes, 0);
    let numbers = std::array::from_fn(|stripe| unsigned(bytes, number_at(stripe)));
    let (records, after) = array(&bytes[RECORDS_AT..], RECORD_BYTES, RECORDS, record)?;
    let table = Table { issued, numbers, records };
    (table.sound() && zero(after)).then_some(table)
}

/// The bytes of a table.
pub fn encode(table: &Table) -> Vec<u8> {
    let mut bytes = vec![0; TABLE_BYTES];
    put_unsigned(&mut bytes, 0, table.issued);
    for (stripe, &number) in table.numbers.iter().enumerate() {
        put_unsigned(&mut bytes, number_at(stripe), number);
    }
    put_array(&mut bytes[RECORDS_AT..], RECORD_BYTES, &table.records, put_record);
    bytes
}

/// The record in 44 bytes, unless its mode, state or mark has no meaning.
fn record(bytes: &[u8]) -> Option<Record> {
    Some(Record {
        handle: unsigned(bytes, 0),
        client: unsigned(bytes, 4),
        stripe: unsigned(bytes, 8),
        mode: Mode::of_code(unsigned(bytes, 12))?,
        state: State::of_code(unsigned(bytes, 16))?,
        number: unsigned(bytes, 20),
        first: hyper(bytes, 24),
        last: hyper(bytes, 32),
        marked: match unsigned(bytes, SHOWN_BYTES) {
            0 => false,
            1 => true,
            _ => return None,
        },
    })
}

fn put_record(bytes: &mut [u8], record: &Record) {
    put_shown(bytes, record);
    put_unsigned(bytes, SHOWN_BYTES, record.marked.into());
}

/// The fields of a record that an event has too.
fn put_shown(bytes: &mut [u8], record: &Record) {
    put_unsigned(bytes, 0, record.handle);
    put_unsigned(bytes, 4, record.client);
    put_unsigned(bytes, 8, record.stripe);
    put_unsigned(bytes, 12, record.mode as u64);
    put_unsigned(bytes, 16, record.state as u64);
    put_unsigned(bytes, 20, record.number);
    put_hyper(bytes, 24, record.first);
    put_hyper(bytes, 32, record.last);
}

/// An event is its kind, and then what is shown of its record.
pub fn put_event(bytes: &mut [u8], event: &Event) {
    put_unsigned(bytes, 0, event.kind as u64);
    put_shown(&mut bytes[4..], &event.record);
}

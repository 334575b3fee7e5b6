//! The four messages and the list: their refusals, their own change, and the settling of the table.

use super::numbers::{partition, put_u32};
use super::table::{Record, Table, ASKED, BW, CANCELING, GRANTED, NBW, PW, WAITING};
use crate::entries::Item;
use crate::model::list::{ITEMS, LIST_EVENTS_BYTES};
use crate::model::locks::{event_at, Answer, EVENTS_BYTES, EVENT_BYTES};
use crate::model::refusal::{self, refuse, Refusal};
use crate::model::table::{CLIENTS, RECORDS, STRIPES};
use crate::model::{valid_range, EOF, HIGHEST};

pub fn request(
    table: &mut [u8],
    events: &mut [u8],
    client: u64,
    stripe: u64,
    mode: u64,
    first: u64,
    last: u64,
) -> Answer {
    answer(table, events, |table| add(table, client, stripe, mode, first, last, 0))
}

/// The table is judged once. Each item is settled behind the events of those before it.
pub fn request_list(table: &mut [u8], events: &mut [u8], items: &mut [Item]) -> Answer {
    let mut table = Table::lent(table);
    let accept = || {
        refuse(refusal::EVENT_BUFFER, events.len() < LIST_EVENTS_BYTES)?;
        refuse(refusal::TABLE, !table.read_sound())?;
        refuse(refusal::ITEMS, items.len() > ITEMS)?;
        let mut events = Events { buffer: events, count: 0 };
        for item in items {
            let before = events.count;
            let Item { client, stripe, mode, first, last, .. } = *item;
            (item.refusal, item.handle) =
                match add(&mut table, client, stripe, mode, first, last, 1) {
                    Ok(handle) => {
                        settle(&mut table, &mut events);
                        (0, u64::from(handle))
                    }
                    Err(refusal) => (refusal, 0),
                };
            item.events = (events.count - before) as u64;
        }
        Ok(events.put_count())
    };
    match accept() {
        Ok(events) => Answer { refusal: 0, handle: 0, events },
        Err(refusal) => Answer { refusal, handle: 0, events: 0 },
    }
}

/// Adds a waiting record, and tells its handle.
fn add(
    table: &mut Table,
    client: u64,
    stripe: u64,
    mode: u64,
    first: u64,
    last: u64,
    mark: u32,
) -> Result<u32, Refusal> {
    refuse(refusal::CLIENT, client >= CLIENTS)?;
    refuse(refusal::STRIPE, stripe >= STRIPES as u64)?;
    refuse(refusal::MODE, !(1..=4).contains(&mode))?;
    refuse(refusal::RANGE, !valid_range(first, last))?;
    refuse(refusal::HANDLES, u64::from(table.issued()) == HIGHEST)?;
    refuse(refusal::RECORDS, table.records().len() == RECORDS)?;
    let (client, stripe, mode) = (client as u32, stripe as u32, mode as u32);
    let (handle, state, number) = (table.issue(), WAITING, 0);
    table.push(Record { handle, client, stripe, mode, state, number, first, last, mark });
    Ok(handle)
}

pub fn acknowledge(table: &mut [u8], events: &mut [u8], client: u64, handle: u64) -> Answer {
    answer(table, events, |table| {
        let (place, record) = named(table, client, handle)?;
        refuse(refusal::STATE, record.state != ASKED)?;
        table.put(place, Record { state: CANCELING, ..record });
        Ok(record.handle)
    })
}

pub fn downgrade(table: &mut [u8], events: &mut [u8], client: u64, handle: u64) -> Answer {
    answer(table, events, |table| {
        let (place, record) = named(table, client, handle)?;
        let blocking = matches!(record.mode, BW | PW);
        refuse(refusal::STATE, record.state != CANCELING || !blocking)?;
        table.put(place, Record { mode: NBW, ..record });
        Ok(record.handle)
    })
}

pub fn release(table: &mut [u8], events: &mut [u8], client: u64, handle: u64) -> Answer {
    answer(table, events, |table| {
        let (place, record) = named(table, client, handle)?;
        table.remove(place);
        Ok(record.handle)
    })
}

/// Serves a message with this change, which gives the message's handle.
fn answer(
    table: &mut [u8],
    events: &mut [u8],
    change: impl FnOnce(&mut Table) -> Result<u32, Refusal>,
) -> Answer {
    let mut table = Table::lent(table);
    let accept = || {
        refuse(refusal::EVENT_BUFFER, events.len() < EVENTS_BYTES)?;
        refuse(refusal::TABLE, !table.read_sound())?;
        let handle = change(&mut table)?;
        let mut events = Events { buffer: events, count: 0 };
        settle(&mut table, &mut events);
        Ok((u64::from(handle), events.put_count()))
    };
    match accept() {
        Ok((handle, events)) => Answer { refusal: 0, handle, events },
        Err(refusal) => Answer { refusal, handle: 0, events: 0 },
    }
}

/// The place of the client's record with this handle, and the record.
fn named(table: &Table, client: u64, handle: u64) -> Result<(usize, Record), Refusal> {
    refuse(refusal::CLIENT, client >= CLIENTS)?;
    let records = table.records();
    let place = partition(records.len(), |place| u64::from(records[place].handle) < handle);
    let record = *records.get(place).ok_or(refusal::NO_RECORD)?;
    refuse(refusal::NO_RECORD, u64::from(record.handle) != handle)?;
    refuse(refusal::OTHER_CLIENT, u64::from(record.client) != client)?;
    Ok((place, record))
}

/// Settles the table and sends the events.
fn settle(table: &mut Table, events: &mut Events) {
    let mut still_waiting = false;
    for place in 0..table.records().len() {
        let request = table.records()[place];
        if request.waiting() {
            match turn(table.records(), place) {
                Some((state, last)) => {
                    let writes = request.writes();
                    let number = if writes { table.take_number(request.stripe) } else { 0 };
                    let lock = Record { state, last, number, mark: 0, ..request };
                    table.put(place, lock);
                    events.send(GRANT, &lock);
                }
                None => still_waiting = true,
            }
        }
    }
    if still_waiting {
        revoke(table, events);
    }
}

/// The state and last byte with which the waiting request at a place is granted,
/// unless it goes on waiting.
fn turn(records: &[Record], place: usize) -> Option<(u32, u64)> {
    let request = &records[place];
    let (mut wanted, mut widened) = (false, EOF);
    for (other_place, other) in records.iter().enumerate() {
        let reached = (other.stripe == request.stripe) & (other.last >= request.first);
        if reached && other_place != place && request.bars(other) {
            if other.first > request.last {
                widened = widened.min(other.first - 1);
            } else if other.waiting() && other_place > place {
                wanted = true;
            } else {
                return None;
            }
        }
    }
    Some(match (wanted, request.mark) {
        (true, _) => (CANCELING, request.last),
        (false, 0) => (GRANTED, widened),
        (false, _) => (GRANTED, request.last),
    })
}

/// Each lock in state 1 that conflicts with a waiting request becomes asked.
fn revoke(table: &mut Table, events: &mut Events) {
    for place in 0..table.records().len() {
        let lock = table.records()[place];
        let wants = |other: &Record| {
            other.waiting()
                && other.stripe == lock.stripe
                && other.shares_byte(&lock)
                && other.bars(&lock)
        };
        if lock.state == GRANTED && table.records().iter().any(wants) {
            let asked = Record { state: ASKED, ..lock };
            table.put(place, asked);
            events.send(REVOCATION, &asked);
        }
    }
}

const GRANT: u32 = 1;
const REVOCATION: u32 = 2;

/// The event buffer, and how many events it has so far.
struct Events<'a> {
    buffer: &'a mut [u8],
    count: usize,
}

impl Events<'_> {
    /// An event is its kind, and then what is shown of its record.
    fn send(&mut self, kind: u32, record: &Record) {
        let event = &mut self.buffer[event_at(self.count)..][..EVENT_BYTES];
        put_u32(event, 0, kind);
        record.show(&mut event[4..]);
        self.count += 1;
    }

    /// Stores and tells how many they are.
    fn put_count(self) -> u64 {
        put_u32(self.buffer, 0, self.count as u32);
        self.count as u64
    }
}

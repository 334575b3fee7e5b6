//! Serving one message: its refusals, its own change, and the settling of the table.

use super::modes::{Mode, State};
use super::refusal::{self, refuse, Refusal};
use super::table::{Record, Table, CLIENTS, RECORDS, STRIPES};
use super::{valid_range, EOF, HIGHEST};

/// The four messages, with their numbers as they arrive.
#[derive(Clone, Copy, Debug)]
pub enum Message {
    Request { client: u64, stripe: u64, mode: u64, first: u64, last: u64 },
    Acknowledge { client: u64, handle: u64 },
    Downgrade { client: u64, handle: u64 },
    Release { client: u64, handle: u64 },
}

#[derive(Clone, Copy, Debug, PartialEq, Eq)]
pub enum Kind {
    Grant = 1,
    Revocation = 2,
}

/// A grant or revocation, with the record as it leaves it.
#[derive(Clone, Copy, Debug, PartialEq, Eq)]
pub struct Event {
    pub kind: Kind,
    pub record: Record,
}

/// The handle that the message made or named, and the events of the call.
#[derive(Clone, Debug, PartialEq, Eq)]
pub struct Accepted {
    pub handle: u64,
    pub events: Vec<Event>,
}

/// Refuses the message and changes nothing, or does its change and settles the table.
pub fn serve(table: &mut Table, message: Message) -> Result<Accepted, Refusal> {
    let handle = change(table, message)?;
    Ok(settled(table, handle))
}

/// The same for a request that is marked, as those of a list are.
pub fn serve_marked(
    table: &mut Table,
    client: u64,
    stripe: u64,
    mode: u64,
    first: u64,
    last: u64,
) -> Result<Accepted, Refusal> {
    let handle = add(table, client, stripe, mode, first, last, true)?;
    Ok(settled(table, handle))
}

/// Settles the table after the change of a message with this handle.
fn settled(table: &mut Table, handle: u64) -> Accepted {
    let mut events = settle(table);
    events.extend(revoke(table));
    Accepted { handle, events }
}

/// The message's own change, and its handle.
fn change(table: &mut Table, message: Message) -> Result<u64, Refusal> {
    match message {
        Message::Request { client, stripe, mode, first, last } => {
            add(table, client, stripe, mode, first, last, false)
        }
        Message::Acknowledge { client, handle } => {
            let record = named(table, client, handle)?;
            refuse(refusal::STATE, record.state != State::Asked)?;
            record.state = State::Canceling;
            Ok(handle)
        }
        Message::Downgrade { client, handle } => {
            let record = named(table, client, handle)?;
            let blocking = matches!(record.mode, Mode::BW | Mode::PW);
            refuse(refusal::STATE, record.state != State::Canceling || !blocking)?;
            record.mode = Mode::NBW;
            Ok(handle)
        }
        Message::Release { client, handle } => {
            named(table, client, handle)?;
            table.records.retain(|record| record.handle != handle);
            Ok(handle)
        }
    }
}

/// Adds a waiting record, and answers its handle.
fn add(
    table: &mut Table,
    client: u64,
    stripe: u64,
    mode: u64,
    first: u64,
    last: u64,
    marked: bool,
) -> Result<u64, Refusal> {
    refuse(refusal::CLIENT, client >= CLIENTS)?;
    refuse(refusal::STRIPE, stripe >= STRIPES as u64)?;
    let mode = Mode::of_code(mode).ok_or(refusal::MODE)?;
    refuse(refusal::RANGE, !valid_range(first, last))?;
    refuse(refusal::HANDLES, table.issued == HIGHEST)?;
    refuse(refusal::RECORDS, table.records.len() == RECORDS)?;
    table.issued += 1;
    let (handle, state, number) = (table.issued, State::Waiting, 0);
    let record = Record { handle, client, stripe, mode, state, number, first, last, marked };
    table.records.push(record);
    Ok(handle)
}

/// The client's record with this handle.
fn named(table: &mut Table, client: u64, handle: u64) -> Result<&mut Record, Refusal> {
    refuse(refusal::CLIENT, client >= CLIENTS)?;
    let record = table.records.iter_mut().find(|record| record.handle == handle);
    let record = record.ok_or(refusal::NO_RECORD)?;
    refuse(refusal::OTHER_CLIENT, record.client != client)?;
    Ok(record)
}

/// Takes the waiting records in rising handle and grants each one that has no obstacle.
fn settle(table: &mut Table) -> Vec<Event> {
    let mut grants = Vec::new();
    for place in 0..table.records.len() {
        let request = table.records[place];
        if request.waiting() && !table.records.iter().any(|other| obstacle(&request, other)) {
            let record = grant(table, &request);
            table.records[place] = record;
            grants.push(Event { kind: Kind::Grant, record });
        }
    }
    grants
}

/// A held lock, or a waiting request with a smaller handle, that conflicts with the asked range.
pub fn obstacle(request: &Record, other: &Record) -> bool {
    (other.held() || other.handle < request.handle) && request.conflicts_with(other)
}

/// A waiting request with a larger handle that conflicts with the asked range.
pub fn successor(request: &Record, other: &Record) -> bool {
    other.waiting() && other.handle > request.handle && request.conflicts_with(other)
}

/// The request as it is granted: canceling with the asked range; or in state 1, with the asked range
/// where it is marked, and widened where it isn't. No lock is marked.
fn grant(table: &mut Table, request: &Record) -> Record {
    let (state, last) = if table.records.iter().any(|other| successor(request, other)) {
        (State::Canceling, request.last)
    } else if request.marked {
        (State::Granted, request.last)
    } else {
        (State::Granted, widened(table, request))
    };
    let number = if request.mode.writes() {
        let last_number = &mut table.numbers[request.stripe as usize];
        *last_number += 1;
        *last_number
    } else {
        0
    };
    Record { state, number, last, marked: false, ..*request }
}

/// The greatest last byte up to EOF for which the range conflicts with no held lock and no other
/// waiting request, that is with no other record. The asked range conflicts with none, and a longer
/// one can begin to only at a record's first byte: so it is EOF or the byte before a record.
fn widened(table: &Table, request: &Record) -> u64 {
    let others = || table.records.iter().filter(|other| other.handle != request.handle);
    let free = |last: &u64| {
        let range = Record { last: *last, ..*request };
        !others().any(|other| range.conflicts_with(other))
    };
    let before_others = others().filter(|other| other.first > request.last).map(|r| r.first - 1);
    before_others.chain([EOF]).filter(free).fold(request.last, u64::max)
}

/// Each lock in state 1 that conflicts with a waiting request becomes asked.
fn revoke(table: &mut Table) -> Vec<Event> {
    let waiting: Vec<Record> = table.records.iter().filter(|r| r.waiting()).copied().collect();
    let mut revocations = Vec::new();
    for lock in &mut table.records {
        let wanted = waiting.iter().any(|request| request.conflicts_with(lock));
        if lock.state == State::Granted && wanted {
            lock.state = State::Asked;
            revocations.push(Event { kind: Kind::Revocation, record: *lock });
        }
    }
    revocations
}

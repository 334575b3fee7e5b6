//! Lists of marked requests, on bytes as the C entry has them (document 02, request #101).

use super::locks::{decode, encode, event_at, put_event, Answer, EVENT_BYTES};
use super::refusal::{self, refuse, Refusal};
use super::serve::{serve_marked, Accepted, Event};
use super::table::{Table, RECORDS};
use super::xdr::put_array;

/// A list has at most 64 items.
pub const ITEMS: usize = 64;
/// At most 512 events arise in a list.
pub const LIST_EVENTS: usize = 2 * RECORDS;
/// The least length of a list's event buffer.
pub const LIST_EVENTS_BYTES: usize = event_at(LIST_EVENTS);

/// A description: five numbers that are asked, and three that are answered.
#[derive(Clone, Copy, Debug, PartialEq, Eq)]
pub struct Item {
    pub client: u64,
    pub stripe: u64,
    pub mode: u64,
    pub first: u64,
    pub last: u64,
    pub refusal: u64,
    pub handle: u64,
    pub events: u64,
}

/// Serves each item as a marked request, on the table that those before it left.
pub fn request_list(table: &mut [u8], events: &mut [u8], items: &mut [Item]) -> Answer {
    match accept(table, events, items) {
        Ok(all) => Answer { refusal: 0, handle: 0, events: all.len() as u64 },
        Err(refusal) => Answer { refusal, handle: 0, events: 0 },
    }
}

/// Changes buffers and items only when every refusal of the whole list is excluded.
fn accept(table: &mut [u8], events: &mut [u8], items: &mut [Item]) -> Result<Vec<Event>, Refusal> {
    refuse(refusal::EVENT_BUFFER, events.len() < LIST_EVENTS_BYTES)?;
    let mut decoded = decode(table).ok_or(refusal::TABLE)?;
    refuse(refusal::ITEMS, items.len() > ITEMS)?;
    let all: Vec<Event> = items.iter_mut().flat_map(|item| answer(&mut decoded, item)).collect();
    table.copy_from_slice(&encode(&decoded));
    put_array(events, EVENT_BYTES, &all, put_event);
    Ok(all)
}

/// Stores an item's answer in it, and gives its events. A refused one changes nothing else.
fn answer(table: &mut Table, item: &mut Item) -> Vec<Event> {
    let Item { client, stripe, mode, first, last, .. } = *item;
    let (refusal, handle, events) = match serve_marked(table, client, stripe, mode, first, last) {
        Ok(Accepted { handle, events }) => (0, handle, events),
        Err(refusal) => (refusal, 0, Vec::new()),
    };
    *item = Item { refusal, handle, events: events.len() as u64, ..*item };
    events
}

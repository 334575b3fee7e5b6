//! The event buffer, and the events that a message leaves in it.

use super::buffer::array;
use super::codes::Handle;
use super::records::Record;
use super::refusal::{accepted, Refusal};
use crate::entries;
use std::fmt::{Debug, Formatter, Result as Formatted};
use std::iter::FusedIterator;
use std::slice::ChunksExact;

/// An event is its kind, then its record.
const EVENT: usize = 4 + Record::SHOWN;
/// At most 256 events arise in a call, and at most 512 in a list.
const EVENTS: usize = 256;
const LIST_EVENTS: usize = 512;

buffer! {
    /// Room for the events of one message, 11,268 bytes. It is used again for the next one.
    EventBuffer, 4 + EVENT * EVENTS
}

buffer! {
    /// Room for the events of a list, 22,532 bytes. It is used again for the next one.
    ListEventBuffer, 4 + EVENT * LIST_EVENTS
}

impl Debug for EventBuffer {
    fn fmt(&self, f: &mut Formatter) -> Formatted {
        f.debug_struct("EventBuffer").finish_non_exhaustive()
    }
}

impl Debug for ListEventBuffer {
    fn fmt(&self, f: &mut Formatter) -> Formatted {
        f.debug_struct("ListEventBuffer").finish_non_exhaustive()
    }
}

/// What an accepted message answers: the handle that it made or named, and its events.
#[derive(Clone, Debug)]
pub struct Answer<'a> {
    pub handle: Handle,
    pub events: Events<'a>,
}

impl Answer<'_> {
    /// What an entry's answer says, with the buffer that it wrote to.
    pub(super) fn of(answer: entries::Answer, buffer: &EventBuffer) -> Result<Answer<'_>, Refusal> {
        accepted(answer.refusal)?;
        Ok(Answer { handle: Handle(answer.handle), events: Events::of(buffer.bytes()) })
    }
}

/// The events of an accepted message: grants in rising handle, then revocations in rising handle. Those
/// of a list are the events of its first item, then those of its second, and so on.
///
/// ```
/// use gilboreth_host::{EventBuffer, Handle, Kind, Mode, State, Table};
///
/// let (mut table, mut events) = (Table::new(), EventBuffer::new());
/// table.request(&mut events, 0, 0, Mode::NBW, 0, 9)?;
/// table.request(&mut events, 1, 0, Mode::NBW, 0, 9)?;
/// let answer = table.acknowledge(&mut events, 0, Handle(1))?;
/// assert_eq!(answer.events.len(), 1);
/// for event in answer.events {
///     match event.kind {
///         Kind::Grant => println!("tell client {} that it has its lock", event.record.client),
///         Kind::Revocation => println!("ask client {} for its lock", event.record.client),
///     }
///     assert_eq!((event.record.handle, event.record.state), (Handle(2), State::Granted));
/// }
/// # Ok::<(), gilboreth_host::Refusal>(())
/// ```
#[derive(Clone, Debug)]
pub struct Events<'a>(ChunksExact<'a, u8>);

impl Events<'_> {
    /// What an entry wrote to an event buffer.
    pub(super) fn of(buffer: &[u8]) -> Events<'_> {
        Events(array(buffer, EVENT))
    }
}

impl Iterator for Events<'_> {
    type Item = Event;

    fn next(&mut self) -> Option<Event> {
        self.0.next().map(Event::read)
    }

    fn size_hint(&self) -> (usize, Option<usize>) {
        self.0.size_hint()
    }
}

impl ExactSizeIterator for Events<'_> {}
impl FusedIterator for Events<'_> {}

/// The kind of an event.
#[derive(Clone, Copy, Debug, PartialEq, Eq, Hash)]
pub enum Kind {
    Grant = 1,
    Revocation = 2,
}

/// A grant or a revocation, with the record as it leaves it.
#[derive(Clone, Copy, Debug, PartialEq, Eq)]
pub struct Event {
    pub kind: Kind,
    pub record: Record,
}

impl Event {
    /// The event in 44 bytes that an entry wrote.
    fn read(bytes: &[u8]) -> Event {
        let kind = if bytes[3] == Kind::Grant as u8 { Kind::Grant } else { Kind::Revocation };
        let record = Record::read(&bytes[4..]).expect("an entry writes valid codes");
        Event { kind, record }
    }
}

//! The lock table of one server, the four messages, and lists of requests.

use super::buffer::{array, unsigned};
use super::codes::{Handle, Number};
use super::events::{Answer, EventBuffer, Events, ListEventBuffer};
use super::item::Item;
use super::records::{Record, Records};
use super::refusal::{accepted, Refusal};
use crate::entries;
use std::fmt::{Debug, Formatter, Result as Formatted};

const STRIPES: usize = 16;
const RECORDS: usize = 256;
/// Handles issued and the last numbers stand before the records.
const RECORDS_AT: usize = 4 + 4 * STRIPES;

buffer! {
    /// The lock table of one server, 11,336 bytes. All zeros is the empty table.
    ///
    /// Each of the four messages is answered at once: with its handle and the grants and revocations
    /// that follow, or with a refusal that changes nothing. Who waits is granted in the call in
    /// which its last obstacle goes.
    ///
    /// The first example of document 01:
    ///
    /// ```
    /// use gilboreth_host::{EventBuffer, Handle, Kind, Mode, Number, Table, EOF};
    ///
    /// let (mut table, mut events) = (Table::new(), EventBuffer::new());
    ///
    /// // Client 0 asks for the bytes 0 to 20 of stripe 0, and gets all up to EOF.
    /// let mut answer = table.request(&mut events, 0, 0, Mode::NBW, 0, 20)?;
    /// assert_eq!(answer.handle, Handle(1));
    /// let grant = answer.events.next().unwrap();
    /// assert_eq!((grant.kind, grant.record.last), (Kind::Grant, EOF));
    ///
    /// // Client 1 asks for the bytes 10 to 30 and waits; client 0 is sent a revocation.
    /// let mut answer = table.request(&mut events, 1, 0, Mode::NBW, 10, 30)?;
    /// let revocation = answer.events.next().unwrap();
    /// assert_eq!((revocation.kind, revocation.record.client), (Kind::Revocation, 0));
    ///
    /// // Client 0 acknowledges it, and client 1 has its lock before client 0 has flushed.
    /// let mut answer = table.acknowledge(&mut events, 0, Handle(1))?;
    /// let grant = answer.events.next().unwrap();
    /// assert_eq!((grant.record.client, grant.record.number), (1, Number(2)));
    /// # Ok::<(), gilboreth_host::Refusal>(())
    /// ```
    Table, RECORDS_AT + 4 + Record::BYTES * RECORDS
}

impl Table {
    /// A client asks for a range of a stripe, both ends included.
    ///
    /// The mode is a [`Mode`](crate::Mode) or a number as it came over the network: refusal 5 is
    /// for one that is not 1 to 4.
    pub fn request<'e>(
        &mut self,
        events: &'e mut EventBuffer,
        client: u64,
        stripe: u64,
        mode: impl Into<u64>,
        first: u64,
        last: u64,
    ) -> Result<Answer<'e>, Refusal> {
        let (table, buffer, mode) = (self.bytes_mut(), events.bytes_mut(), mode.into());
        let answer = entries::request(table, buffer, client, stripe, mode, first, last);
        Answer::of(answer, events)
    }

    /// Serves a list of at most 64 requests, each on the table that those before it left. Each answer is
    /// stored in its own item; a refused item changes nothing else, and the list goes on.
    ///
    /// These requests are marked: their grants end where they asked. So ranks that write blocks in turn
    /// ask for them ahead, and none stands in another's way:
    ///
    /// ```
    /// use gilboreth_host::{Item, Kind, ListEventBuffer, Mode, Refusal, Table};
    ///
    /// let (mut table, mut events) = (Table::new(), ListEventBuffer::new());
    /// for rank in 0..4 {
    ///     // Rank 0 has the blocks 0, 4, 8, .., rank 1 the blocks 1, 5, 9, ..
    ///     let blocks = (rank..32).step_by(4);
    ///     let ask = |block| Item::new(rank, 0, Mode::NBW, 1_000 * block, 1_000 * block + 999);
    ///     let mut items: Vec<Item> = blocks.map(ask).collect();
    ///     let granted = table.request_list(&mut events, &mut items)?;
    ///     for (item, event) in items.iter().zip(granted) {
    ///         assert_eq!((item.answered(), event.kind), (Some(Ok(event.record.handle)), Kind::Grant));
    ///         assert_eq!((event.record.first, event.record.last), (item.first, item.last));
    ///     }
    /// }
    ///
    /// let mut items = [Item::new(0, 16, Mode::NBW, 0, 9), Item::new(0, 1, Mode::NBW, 0, 9)];
    /// table.request_list(&mut events, &mut items)?;
    /// assert_eq!(items[0].answered(), Some(Err(Refusal::Stripe)));
    /// assert!(matches!(items[1].answered(), Some(Ok(_))));
    /// # Ok::<(), Refusal>(())
    /// ```
    pub fn request_list<'e>(
        &mut self,
        events: &'e mut ListEventBuffer,
        items: &mut [Item],
    ) -> Result<Events<'e>, Refusal> {
        let answer = entries::request_list(&mut self.0, events.bytes_mut(), items);
        accepted(answer.refusal)?;
        Ok(Events::of(events.bytes()))
    }

    /// The reply to a revocation: the holder is going to flush and release.
    pub fn acknowledge<'e>(
        &mut self,
        events: &'e mut EventBuffer,
        client: u64,
        handle: Handle,
    ) -> Result<Answer<'e>, Refusal> {
        let answer = entries::acknowledge(&mut self.0, events.bytes_mut(), client, handle.0);
        Answer::of(answer, events)
    }

    /// A canceling BW or PW becomes NBW, which others may pass.
    ///
    /// ```
    /// use gilboreth_host::{EventBuffer, Handle, Mode, Refusal, Table};
    ///
    /// let (mut table, mut events) = (Table::new(), EventBuffer::new());
    /// table.request(&mut events, 0, 0, Mode::BW, 0, 9)?;
    /// table.request(&mut events, 1, 0, Mode::NBW, 0, 9)?;
    /// let answer = table.acknowledge(&mut events, 0, Handle(1))?;
    /// assert_eq!(answer.events.len(), 0);
    /// let mut answer = table.downgrade(&mut events, 0, Handle(1))?;
    /// assert_eq!(answer.events.next().unwrap().record.handle, Handle(2));
    /// let again = table.downgrade(&mut events, 0, Handle(1));
    /// assert_eq!(again.unwrap_err(), Refusal::State);
    /// # Ok::<(), Refusal>(())
    /// ```
    pub fn downgrade<'e>(
        &mut self,
        events: &'e mut EventBuffer,
        client: u64,
        handle: Handle,
    ) -> Result<Answer<'e>, Refusal> {
        let answer = entries::downgrade(&mut self.0, events.bytes_mut(), client, handle.0);
        Answer::of(answer, events)
    }

    /// A holder gives its lock back. On a waiting request it withdraws it.
    ///
    /// ```
    /// use gilboreth_host::{EventBuffer, Handle, Mode, Refusal, Table};
    ///
    /// let (mut table, mut events) = (Table::new(), EventBuffer::new());
    /// table.request(&mut events, 0, 0, Mode::PW, 0, 9)?;
    /// table.request(&mut events, 1, 0, Mode::PR, 0, 9)?;
    /// let mut answer = table.release(&mut events, 0, Handle(1))?;
    /// assert_eq!(answer.events.next().unwrap().record.handle, Handle(2));
    /// let again = table.release(&mut events, 0, Handle(1));
    /// assert_eq!(again.unwrap_err(), Refusal::NoRecord);
    /// # Ok::<(), Refusal>(())
    /// ```
    pub fn release<'e>(
        &mut self,
        events: &'e mut EventBuffer,
        client: u64,
        handle: Handle,
    ) -> Result<Answer<'e>, Refusal> {
        let answer = entries::release(&mut self.0, events.bytes_mut(), client, handle.0);
        Answer::of(answer, events)
    }

    /// The handles issued so far.
    pub fn issued(&self) -> u64 {
        unsigned(self.bytes(), 0)
    }

    /// The last number of a stripe, 0 to 15.
    pub fn last_number(&self, stripe: usize) -> Number {
        assert!(stripe < STRIPES, "stripes are 0 to 15");
        Number(unsigned(self.bytes(), 4 + 4 * stripe))
    }

    /// The records, in rising handle.
    pub fn records(&self) -> Records<'_> {
        Records(array(&self.bytes()[RECORDS_AT..], Record::BYTES))
    }
}

impl Debug for Table {
    fn fmt(&self, f: &mut Formatter) -> Formatted {
        let records: Vec<Record> = self.records().collect();
        f.debug_struct("Table").field("issued", &self.issued()).field("records", &records).finish()
    }
}

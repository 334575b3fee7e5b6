//! The lock table's bytes, with its records read once: when it is sound, and how it changes.

use super::numbers::{put_u32, put_u64, u32_at, u64_at, zero};
use crate::model::locks::{
    record_at, RECORDS_AT as COUNT_AT, RECORD_BYTES, SHOWN_BYTES, TABLE_BYTES,
};
use crate::model::table::{CLIENTS, RECORDS, STRIPES};
use crate::model::valid_range;

pub const PR: u32 = 1;
pub const NBW: u32 = 2;
pub const BW: u32 = 3;
pub const PW: u32 = 4;

pub const WAITING: u32 = 0;
pub const GRANTED: u32 = 1;
pub const ASKED: u32 = 2;
pub const CANCELING: u32 = 3;

#[derive(Clone, Copy, Default)]
pub struct Record {
    pub handle: u32,
    pub client: u32,
    pub stripe: u32,
    pub mode: u32,
    pub state: u32,
    pub number: u32,
    pub first: u64,
    pub last: u64,
    pub mark: u32,
}

impl Record {
    fn read(bytes: &[u8]) -> Record {
        Record {
            handle: u32_at(bytes, 0),
            client: u32_at(bytes, 4),
            stripe: u32_at(bytes, 8),
            mode: u32_at(bytes, 12),
            state: u32_at(bytes, 16),
            number: u32_at(bytes, 20),
            first: u64_at(bytes, 24),
            last: u64_at(bytes, 32),
            mark: u32_at(bytes, SHOWN_BYTES),
        }
    }

    fn put(&self, bytes: &mut [u8]) {
        self.show(bytes);
        put_u32(bytes, SHOWN_BYTES, self.mark);
    }

    /// What an event has of it.
    pub fn show(&self, bytes: &mut [u8]) {
        put_u32(bytes, 0, self.handle);
        put_u32(bytes, 4, self.client);
        put_u32(bytes, 8, self.stripe);
        put_u32(bytes, 12, self.mode);
        put_u32(bytes, 16, self.state);
        put_u32(bytes, 20, self.number);
        put_u64(bytes, 24, self.first);
        put_u64(bytes, 32, self.last);
    }

    pub fn waiting(&self) -> bool {
        self.state == WAITING
    }

    pub fn writes(&self) -> bool {
        self.mode != PR
    }

    /// Table II: whether this mode, asked, conflicts with the other, held or waiting.
    pub fn bars(&self, other: &Record) -> bool {
        match (self.mode, other.mode) {
            (PR, PR) => false,
            (NBW | BW, NBW) => other.state != CANCELING,
            _ => true,
        }
    }

    pub fn shares_byte(&self, other: &Record) -> bool {
        (self.first <= other.last) & (other.first <= self.last)
    }
}

/// A lent table. Its records stand in the bytes and beside them.
pub struct Table<'a> {
    bytes: &'a mut [u8],
    records: [Record; RECORDS],
    count: usize,
}

impl Table<'_> {
    pub fn lent(bytes: &mut [u8]) -> Table<'_> {
        Table { bytes, records: [Record::default(); RECORDS], count: 0 }
    }

    pub fn records(&self) -> &[Record] {
        &self.records[..self.count]
    }

    pub fn issued(&self) -> u32 {
        u32_at(self.bytes, 0)
    }

    pub fn issue(&mut self) -> u32 {
        let handle = self.issued() + 1;
        put_u32(self.bytes, 0, handle);
        handle
    }

    fn last_number(&self, stripe: usize) -> u32 {
        u32_at(self.bytes, 4 + 4 * stripe)
    }

    pub fn take_number(&mut self, stripe: u32) -> u32 {
        let number = self.last_number(stripe as usize) + 1;
        put_u32(self.bytes, 4 + 4 * stripe as usize, number);
        number
    }

    pub fn put(&mut self, place: usize, record: Record) {
        self.records[place] = record;
        record.put(&mut self.bytes[record_at(place)..][..RECORD_BYTES]);
    }

    pub fn push(&mut self, record: Record) {
        self.put(self.count, record);
        self.resize(self.count + 1);
    }

    pub fn remove(&mut self, place: usize) {
        self.records.copy_within(place + 1..self.count, place);
        let (at, end) = (record_at(place), record_at(self.count));
        self.bytes.copy_within(at + RECORD_BYTES..end, at);
        self.bytes[end - RECORD_BYTES..end].fill(0);
        self.resize(self.count - 1);
    }

    fn resize(&mut self, count: usize) {
        self.count = count;
        put_u32(self.bytes, COUNT_AT, count as u32);
    }

    /// Reads the records and tells whether the table is sound.
    pub fn read_sound(&mut self) -> bool {
        if self.bytes.len() != TABLE_BYTES || u32_at(self.bytes, COUNT_AT) as usize > RECORDS {
            return false;
        }
        self.count = u32_at(self.bytes, COUNT_AT) as usize;
        let (records, after) = self.bytes[record_at(0)..].split_at(RECORD_BYTES * self.count);
        for (record, bytes) in self.records.iter_mut().zip(records.chunks_exact(RECORD_BYTES)) {
            *record = Record::read(bytes);
        }
        zero(after) && self.sound_records() && self.sound_pairs()
    }

    /// The rules for one record, and those for a stripe's last number.
    fn sound_records(&self) -> bool {
        let mut handle = 0;
        let mut waiting_writes = [0; STRIPES];
        for record in self.records() {
            if handle >= record.handle
                || u64::from(record.client) >= CLIENTS
                || record.stripe as usize >= STRIPES
                || !(PR..=PW).contains(&record.mode)
                || record.state > CANCELING
                || !valid_range(record.first, record.last)
                || record.mark > u32::from(record.waiting())
            {
                return false;
            }
            let stripe = record.stripe as usize;
            let numbered = record.writes() && !record.waiting();
            let most = if numbered { self.last_number(stripe) } else { 0 };
            if record.number < u32::from(numbered) || record.number > most {
                return false;
            }
            waiting_writes[stripe] += u64::from(record.writes() && record.waiting());
            handle = record.handle;
        }
        let counted = |(stripe, waiting_writes): (usize, u64)| {
            u64::from(self.last_number(stripe)) + waiting_writes <= u64::from(self.issued())
        };
        handle <= self.issued() && waiting_writes.into_iter().enumerate().all(counted)
    }

    /// Each held lock with each earlier one; most pairs share neither a byte nor a number.
    fn sound_pairs(&self) -> bool {
        for (place, one) in self.records().iter().enumerate() {
            if one.waiting() {
                continue;
            }
            for other in &self.records[..place] {
                let near = one.shares_byte(other) | (one.number == other.number);
                if near && one.stripe == other.stripe && !other.waiting() && !sound_pair(one, other)
                {
                    return false;
                }
            }
        }
        true
    }
}

/// Two held locks of one stripe that share a byte or a number.
fn sound_pair(one: &Record, other: &Record) -> bool {
    let (smaller, greater) = if one.number < other.number { (one, other) } else { (other, one) };
    let passed = (smaller.mode == NBW)
        & (smaller.state == CANCELING)
        & ((greater.mode == NBW) | (greater.mode == BW))
        & (smaller.number != greater.number);
    let both_read = !one.writes() & !other.writes();
    passed | both_read
}

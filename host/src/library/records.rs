//! Records of the lock table.

use super::buffer::{hyper, unsigned};
use super::codes::{Handle, Mode, Number, State};
use std::slice::ChunksExact;

/// A held lock or a waiting request. Its range includes both ends.
#[derive(Clone, Copy, Debug, PartialEq, Eq)]
pub struct Record {
    pub handle: Handle,
    pub client: u64,
    pub stripe: u64,
    pub mode: Mode,
    pub state: State,
    pub number: Number,
    pub first: u64,
    pub last: u64,
}

impl Record {
    /// What is shown of a record, in an event too.
    pub(super) const SHOWN: usize = 40;
    /// After it stands the mark, 1 while a marked request waits and else 0.
    pub(super) const BYTES: usize = Record::SHOWN + 4;

    /// The record whose first 40 bytes these are, unless its mode or state has no meaning.
    pub(super) fn read(bytes: &[u8]) -> Option<Record> {
        Some(Record {
            handle: Handle(unsigned(bytes, 0)),
            client: unsigned(bytes, 4),
            stripe: unsigned(bytes, 8),
            mode: Mode::of_code(unsigned(bytes, 12))?,
            state: State::of_code(unsigned(bytes, 16))?,
            number: Number(unsigned(bytes, 20)),
            first: hyper(bytes, 24),
            last: hyper(bytes, 32),
        })
    }
}

/// The records of a table, in rising handle. Of one that isn't sound, those before the first whose
/// mode or state has no meaning.
#[derive(Clone, Debug)]
pub struct Records<'a>(pub(super) ChunksExact<'a, u8>);

impl Iterator for Records<'_> {
    type Item = Record;

    fn next(&mut self) -> Option<Record> {
        Record::read(self.0.next()?)
    }
}

//! The lock table of one server, decoded: its records, when two conflict, and when it is sound.

use super::modes::{modes_conflict, Mode, State};
use super::{valid_range, HIGHEST};

/// Clients are 0 to 63.
pub const CLIENTS: u64 = 64;
/// Stripes are 0 to 15.
pub const STRIPES: usize = 16;
/// A table has at most 256 records.
pub const RECORDS: usize = 256;

/// A held lock or a waiting request.
#[derive(Clone, Copy, Debug, PartialEq, Eq)]
pub struct Record {
    pub handle: u64,
    pub client: u64,
    pub stripe: u64,
    pub mode: Mode,
    pub state: State,
    pub number: u64,
    pub first: u64,
    pub last: u64,
    /// A marked request waits, whose grant ends where it asked.
    pub marked: bool,
}

/// The default is the empty table. Records stand in rising handle.
#[derive(Clone, Debug, Default, PartialEq, Eq)]
pub struct Table {
    pub issued: u64,
    pub numbers: [u64; STRIPES],
    pub records: Vec<Record>,
}

impl Record {
    pub fn waiting(&self) -> bool {
        self.state == State::Waiting
    }

    pub fn held(&self) -> bool {
        !self.waiting()
    }

    /// Whether both are of one stripe and have a byte in common.
    fn meets(&self, other: &Record) -> bool {
        self.stripe == other.stripe && self.first <= other.last && other.first <= self.last
    }

    /// Whether this one, asked, conflicts with the other, held or waiting.
    pub fn conflicts_with(&self, other: &Record) -> bool {
        self.meets(other) && modes_conflict(self.mode, other.mode, other.state)
    }
}

impl Table {
    /// Every rule of a sound table, in the document's order.
    pub fn sound(&self) -> bool {
        self.issued <= HIGHEST
            && self.records.windows(2).all(|pair| pair[0].handle < pair[1].handle)
            && self.records.iter().all(|record| self.sound_record(record))
            && (0..STRIPES).all(|stripe| self.sound_count(stripe))
            && self.sound_pairs()
    }

    /// The handle is issued, client, stripe and range are valid, the number fits, and no held lock
    /// is marked.
    fn sound_record(&self, record: &Record) -> bool {
        (1..=self.issued).contains(&record.handle)
            && record.client < CLIENTS
            && record.stripe < STRIPES as u64
            && valid_range(record.first, record.last)
            && !(record.held() && record.marked)
            && if record.held() && record.mode.writes() {
                (1..=self.numbers[record.stripe as usize]).contains(&record.number)
            } else {
                record.number == 0
            }
    }

    /// The stripe's last number plus its waiting write requests is at most handles issued.
    fn sound_count(&self, stripe: usize) -> bool {
        let waiting_write =
            |r: &&Record| r.waiting() && r.mode.writes() && r.stripe == stripe as u64;
        let waiting_writes = self.records.iter().filter(waiting_write).count();
        self.numbers[stripe] + waiting_writes as u64 <= self.issued
    }

    /// The search over pairs of held locks stops at the first unsound one.
    fn sound_pairs(&self) -> bool {
        let held: Vec<&Record> = self.records.iter().filter(|record| record.held()).collect();
        (0..held.len()).all(|i| (0..i).all(|j| sound_pair(held[i], held[j])))
    }
}

/// Two held locks of one stripe: the numbers of write locks differ.
/// With a common byte both are PR, or the one with the smaller number is a canceling NBW
/// and the other is NBW or BW.
fn sound_pair(one: &Record, other: &Record) -> bool {
    let (smaller, greater) = if one.number < other.number { (one, other) } else { (other, one) };
    let both_write = one.mode.writes() && other.mode.writes();
    let both_read = !one.mode.writes() && !other.mode.writes();
    let passed = smaller.mode == Mode::NBW
        && smaller.state == State::Canceling
        && matches!(greater.mode, Mode::NBW | Mode::BW);
    let same_number = one.stripe == other.stripe && both_write && one.number == other.number;
    !same_number && (!one.meets(other) || both_read || passed)
}

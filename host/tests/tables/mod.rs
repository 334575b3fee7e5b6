//! A sound table, and the changes of its integers that break one rule of soundness or just don't.

use gilboreth_host::model::locks::{encode, number_at, record_at, RECORDS_AT, TABLE_BYTES};
use gilboreth_host::model::modes::{Mode, State};
use gilboreth_host::model::table::{Record, Table};

/// Seven handles, and number 3 on stripe 0. A canceling NBW lies under a BW, two PR share bytes,
/// and an NBW waits, unmarked; of stripe 1 there is an NBW with number 1 on the same bytes.
pub fn table() -> Vec<u8> {
    let record = |handle, stripe, mode, state, number, first, last| Record {
        handle,
        client: 5,
        stripe,
        mode,
        state,
        number,
        first,
        last,
        marked: false,
    };
    let mut table = Table { issued: 7, ..Table::default() };
    table.numbers[0] = 3;
    table.numbers[1] = 1;
    table.records = vec![
        record(1, 0, Mode::NBW, State::Canceling, 1, 0, 9),
        record(2, 0, Mode::BW, State::Granted, 2, 5, 20),
        record(3, 0, Mode::PR, State::Granted, 0, 30, 40),
        record(4, 0, Mode::PR, State::Asked, 0, 35, 45),
        record(5, 0, Mode::NBW, State::Waiting, 0, 0, 3),
        record(7, 1, Mode::NBW, State::Granted, 1, 0, 9),
    ];
    encode(&table)
}

/// The offset of a record's integer: handle, client, stripe, mode, state, number,
/// then the high and low halves of first and last, and the mark.
const fn at(record: usize, integer: usize) -> usize {
    record_at(record) + 4 * integer
}

const HANDLE: usize = 0;
const CLIENT: usize = 1;
const STRIPE: usize = 2;
const MODE: usize = 3;
const STATE: usize = 4;
const NUMBER: usize = 5;
const FIRST: usize = 7;
const LAST_HIGH: usize = 8;
const LAST: usize = 9;
const MARK: usize = 10;

/// How many records it has, and where their bytes end.
pub const RECORDS: usize = 6;
pub const END: usize = record_at(RECORDS);

/// The bytes with other integers at some offsets.
pub fn with(mut bytes: Vec<u8>, changes: &[(usize, u32)]) -> Vec<u8> {
    for &(at, value) in changes {
        bytes[at..at + 4].copy_from_slice(&value.to_be_bytes());
    }
    bytes
}

/// A name, and the integers to put at some offsets.
type Change = (&'static str, &'static [(usize, u32)]);

pub const SOUND: [Change; 15] = [
    ("as it is", &[]),
    ("the highest client", &[(at(0, CLIENT), 63)]),
    ("the highest stripe", &[(at(4, STRIPE), 15)]),
    ("a range up to EOF", &[(at(3, LAST_HIGH), 0x7FFF_FFFF), (at(3, LAST), 0xFFFF_FFFF)]),
    ("a range of one byte", &[(at(3, FIRST), 45)]),
    ("the stripe's last number", &[(at(1, NUMBER), 3)]),
    ("last number and one waiting write make handles issued", &[(number_at(0), 6)]),
    ("the last number of a stripe without records", &[(number_at(15), 7)]),
    ("a gap in the handles", &[(at(4, HANDLE), 6)]),
    ("touching locks", &[(at(1, FIRST), 10), (at(1, MODE), 4)]),
    ("an NBW on a canceling NBW", &[(at(1, MODE), 2), (at(1, STATE), 3)]),
    ("a waiting PW over anything", &[(at(4, MODE), 4)]),
    ("a waiting PR doesn't count as a write", &[(at(4, MODE), 1), (number_at(0), 7)]),
    ("a marked request that waits", &[(at(4, MARK), 1)]),
    ("a marked PR that waits", &[(at(4, MARK), 1), (at(4, MODE), 1)]),
];

pub const UNSOUND: [Change; 41] = [
    ("handle 0", &[(at(0, HANDLE), 0)]),
    ("a handle that isn't issued", &[(0, 6)]),
    ("equal handles", &[(at(1, HANDLE), 1)]),
    ("falling handles", &[(at(1, HANDLE), 3), (at(2, HANDLE), 2)]),
    ("client 64", &[(at(0, CLIENT), 64)]),
    ("stripe 16", &[(at(4, STRIPE), 16)]),
    ("mode 0", &[(at(4, MODE), 0)]),
    ("mode 5", &[(at(4, MODE), 5)]),
    ("state 4", &[(at(3, STATE), 4)]),
    ("first above last", &[(at(3, FIRST), 46)]),
    ("last above EOF", &[(at(3, LAST_HIGH), 0x8000_0000)]),
    ("a held write lock with number 0", &[(at(5, NUMBER), 0)]),
    ("a number above the stripe's last", &[(at(5, NUMBER), 2)]),
    ("equal numbers of one stripe", &[(at(1, NUMBER), 1), (at(1, FIRST), 10)]),
    ("a PR with a number", &[(at(2, NUMBER), 1)]),
    ("a waiting request with a number", &[(at(4, NUMBER), 3)]),
    ("last number and one waiting write above handles issued", &[(number_at(0), 7)]),
    ("a last number above handles issued", &[(number_at(15), 8)]),
    (
        "last number and one waiting write make 2^32",
        &[(0, 0xFFFF_FFFF), (number_at(0), 0xFFFF_FFFF)],
    ),
    ("the smaller number isn't canceling", &[(at(0, STATE), 2)]),
    ("the smaller number is a canceling BW", &[(at(0, MODE), 3)]),
    ("the smaller number is a canceling PW", &[(at(0, MODE), 4)]),
    ("a PW on a canceling NBW", &[(at(1, MODE), 4)]),
    ("a PR on a canceling NBW", &[(at(2, FIRST), 9), (at(2, LAST), 9), (at(1, FIRST), 10)]),
    ("the canceling NBW has the greater number", &[(at(0, NUMBER), 3)]),
    ("one common byte", &[(at(1, FIRST), 9), (at(1, MODE), 4)]),
    ("a PR on a BW", &[(at(2, FIRST), 20)]),
    ("a PR on a canceling BW", &[(at(2, FIRST), 20), (at(1, STATE), 3)]),
    ("a waiting request with mark 2", &[(at(4, MARK), 2)]),
    ("a waiting request with mark 2^24", &[(at(4, MARK), 0x0100_0000)]),
    ("a waiting request with mark 2^32 - 1", &[(at(4, MARK), 0xFFFF_FFFF)]),
    ("a canceling lock with a mark", &[(at(0, MARK), 1)]),
    ("a granted lock with a mark", &[(at(1, MARK), 1)]),
    ("a granted lock with mark 2", &[(at(5, MARK), 2)]),
    ("a granted PR with a mark", &[(at(2, MARK), 1)]),
    ("an asked lock with a mark", &[(at(3, MARK), 1)]),
    ("an asked lock with mark 2^32 - 1", &[(at(3, MARK), 0xFFFF_FFFF)]),
    ("257 records", &[(RECORDS_AT, 257)]),
    ("2^32 - 1 records", &[(RECORDS_AT, 0xFFFF_FFFF)]),
    ("a byte after the records", &[(END, 0x0100_0000)]),
    ("the last byte", &[(TABLE_BYTES - 4, 1)]),
];

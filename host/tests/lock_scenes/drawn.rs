//! Tables that no session made: sound ones drawn at random, most of them not settled.

use crate::messages::message;
use gilboreth_host::beside::Beside;
use gilboreth_host::model::locks::{encode, EVENTS_BYTES};
use gilboreth_host::model::modes::{Mode, State};
use gilboreth_host::model::serve::obstacle;
use gilboreth_host::model::table::{Record, Table, RECORDS, STRIPES};
use gilboreth_host::model::{EOF, HIGHEST};
use gilboreth_host::random::{for_seeds, Random};
use std::ops::Range;

/// Few records on two stripes and crowded ranges. Of these tables at least one in ten is settled, and
/// at least one in four is not.
pub fn small(beside: &mut Beside, seeds: Range<u64>) {
    let (mut settled, mut unsettled) = (0, 0);
    for_seeds(seeds, |random| {
        let records = random.below(20);
        let table = table(random, records, 2, 24);
        *if is_settled(&table) { &mut settled } else { &mut unsettled } += 1;
        messages(beside, random, &table, 8);
    });
    let all = settled + unsettled;
    assert!(10 * settled >= all && 4 * unsettled >= all, "{settled} settled, {unsettled} not");
}

/// Each waiting request has an obstacle, and no lock in state 1 conflicts with a waiting request.
fn is_settled(table: &Table) -> bool {
    let records = || table.records.iter();
    let at_rest = |request: &Record| {
        records().any(|other| obstacle(request, other))
            && !records().any(|lock| lock.state == State::Granted && request.conflicts_with(lock))
    };
    records().filter(|record| record.waiting()).all(at_rest)
}

/// Up to 256 records on all stripes and wide ranges.
pub fn large(beside: &mut Beside, seeds: Range<u64>) {
    for_seeds(seeds, |random| {
        let table = table(random, 400, 16, 2_000);
        messages(beside, random, &table, 8);
    });
}

/// So many messages, each one on the table as it was drawn.
fn messages(beside: &mut Beside, random: &mut Random, table: &Table, count: usize) {
    let bytes = encode(table);
    let mut events = vec![0xEE; EVENTS_BYTES];
    for _ in 0..count {
        beside.serve(&mut bytes.clone(), &mut events, message(table, random, 3));
    }
}

/// A sound table: of so many records drawn, those that leave it sound. Handles issued are the fewest
/// that leave it sound, one more, or at most one below the highest.
pub fn table(random: &mut Random, records: u64, stripes: u64, spread: u64) -> Table {
    let mut table = Table { issued: HIGHEST, ..Table::default() };
    table.numbers = std::array::from_fn(|_| random.pick(&[4, 400, HIGHEST - 400]));
    for _ in 0..records {
        let record = record(random, &table, stripes, spread);
        table.records.push(record);
        if !table.sound() || table.records.len() > RECORDS {
            table.records.pop();
        }
    }
    let last_handle = table.records.last().map_or(0, |record| record.handle);
    let counts = (0..STRIPES).map(|stripe| table.numbers[stripe] + waiting_writes(&table, stripe));
    let least = counts.fold(last_handle, u64::max);
    table.issued = random.pick(&[least, least + 1, HIGHEST - 1, HIGHEST]);
    assert!(table.sound());
    table
}

fn waiting_writes(table: &Table, stripe: usize) -> u64 {
    let waiting_write = |r: &&Record| r.waiting() && r.mode.writes() && r.stripe == stripe as u64;
    table.records.iter().filter(waiting_write).count() as u64
}

/// A record with the next handle or one soon after. Canceling NBW and PR are drawn more often,
/// because they can share bytes.
fn record(random: &mut Random, table: &Table, stripes: u64, spread: u64) -> Record {
    let last_handle = table.records.last().map_or(0, |record| record.handle);
    let (mode, state) = match random.below(8) {
        0 | 1 => (Mode::NBW, State::Canceling),
        2 => (Mode::PR, State::Granted),
        _ => {
            (Mode::of_code(1 + random.below(4)).unwrap(), State::of_code(random.below(4)).unwrap())
        }
    };
    let stripe = random.below(stripes);
    let first = random.below(spread) + if random.once_in(4) { EOF - spread } else { 0 };
    let number = if mode.writes() && state != State::Waiting {
        let last_number = table.numbers[stripe as usize];
        last_number - random.below(last_number.min(400))
    } else {
        0
    };
    Record {
        handle: last_handle + 1 + random.below(3),
        client: random.below(4),
        stripe,
        mode,
        state,
        number,
        first,
        last: first + random.below(EOF.min(first + 8) - first + 1),
        marked: state == State::Waiting && random.once_in(2),
    }
}

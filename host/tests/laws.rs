//! Laws of the lock table, over random sessions of messages and lists from the empty table, with few
//! stripes and crowded ranges. The sessions are played by the library and by the model.

mod messages;

use gilboreth_host::beside::Beside;
use gilboreth_host::calls::LIBRARY;
use gilboreth_host::entries::Item;
use gilboreth_host::model::list::LIST_EVENTS_BYTES;
use gilboreth_host::model::locks::{decode, encode, Answer, EVENTS_BYTES, TABLE_BYTES};
use gilboreth_host::model::modes::{Mode, State};
use gilboreth_host::model::serve::{
    obstacle, serve, serve_marked, successor, Accepted, Event, Kind, Message,
};
use gilboreth_host::model::table::{Record, Table, STRIPES};
use gilboreth_host::model::EOF;
use gilboreth_host::random::{for_seeds, Random};
use messages::{crowded, message};
use std::thread::scope;

/// One table as values, and as bytes that the library serves beside the model, and what the session has seen of it.
struct Session {
    library: Beside,
    table: Table,
    bytes: Vec<u8>,
    /// The requests as they were asked; the first has handle 1.
    asked: Vec<Record>,
    /// The write grants of each stripe.
    write_grants: [u64; STRIPES],
    /// Grants that came canceling, grants that something stopped before EOF, revocations, and
    /// requests that waited for another waiting one alone.
    seen: [u64; 4],
    /// Grants of marked requests in state 1, at once and after a wait.
    marked: [u64; 2],
}

impl Session {
    fn new() -> Session {
        Session {
            library: Beside::new(LIBRARY),
            table: Table::default(),
            bytes: vec![0; TABLE_BYTES],
            asked: Vec::new(),
            write_grants: [0; STRIPES],
            seen: [0; 4],
            marked: [0; 2],
        }
    }

    /// Serves a message on the values and, by the library too, on the bytes, and tests every law.
    fn serve(&mut self, message: Message) {
        let (old_table, old_bytes) = (self.table.clone(), self.bytes.clone());
        let old_buffer = vec![0xEE; EVENTS_BYTES];
        let mut buffer = old_buffer.clone();
        let answered = self.library.serve(&mut self.bytes, &mut buffer, message);
        match serve(&mut self.table, message) {
            Err(refusal) => {
                assert_eq!(answered, Answer { refusal, handle: 0, events: 0 });
                assert!(self.table == old_table);
                assert!(self.bytes == old_bytes && buffer == old_buffer);
            }
            Ok(accepted) => {
                let (handle, events) = (accepted.handle, accepted.events.len() as u64);
                assert_eq!(answered, Answer { refusal: 0, handle, events });
                if let Message::Request { client, stripe, mode, first, last } = message {
                    self.remember([client, stripe, mode, first, last], handle, false);
                }
                self.check_accepted(&accepted);
                self.check_bytes();
            }
        }
    }

    /// The same for a list. Its items are marked requests on the values, one after the other; so their
    /// answers are those of the list, and every law is tested after each.
    fn list(&mut self, random: &mut Random) {
        let count = 1 + random.below(4);
        let asked: Vec<[u64; 5]> = (0..count).map(|_| crowded(random)).collect();
        let item = |&[client, stripe, mode, first, last]: &[u64; 5]| {
            Item::new(client, stripe, mode, first, last)
        };
        let mut items: Vec<Item> = asked.iter().map(item).collect();
        let mut buffer = vec![0xEE; LIST_EVENTS_BYTES];
        let all = self.library.list(&mut self.bytes, &mut buffer, &mut items);
        let mut events = 0;
        for (asked, item) in asked.into_iter().zip(items) {
            let [client, stripe, mode, first, last] = asked;
            match serve_marked(&mut self.table, client, stripe, mode, first, last) {
                Err(refusal) => {
                    assert_eq!((item.refusal, item.handle, item.events), (refusal, 0, 0))
                }
                Ok(accepted) => {
                    let own = accepted.events.len() as u64;
                    assert_eq!((item.refusal, item.handle, item.events), (0, accepted.handle, own));
                    self.remember(asked, accepted.handle, true);
                    self.check_accepted(&accepted);
                    events += own;
                }
            }
        }
        assert_eq!(all, Answer { refusal: 0, handle: 0, events });
        self.check_bytes();
    }

    fn check_accepted(&mut self, accepted: &Accepted) {
        self.check_table();
        self.check_waits();
        self.check_events(accepted);
    }

    /// The accepted requests are answered with 1, 2, 3, ..: no handle is given twice.
    fn remember(&mut self, asked: [u64; 5], handle: u64, marked: bool) {
        let [client, stripe, mode, first, last] = asked;
        let mode = Mode::of_code(mode).unwrap();
        let (state, number) = (State::Waiting, 0);
        self.asked.push(Record {
            handle,
            client,
            stripe,
            mode,
            state,
            number,
            first,
            last,
            marked,
        });
        assert_eq!(handle, self.asked.len() as u64);
    }

    /// The bytes and the values of the table say the same.
    fn check_bytes(&self) {
        assert!(self.bytes == encode(&self.table));
        assert_eq!(decode(&self.bytes).as_ref(), Some(&self.table));
    }

    /// The table is sound and settled.
    fn check_table(&self) {
        assert!(self.table.sound());
        let records = || self.table.records.iter();
        for request in records().filter(|record| record.waiting()) {
            assert!(records().any(|other| obstacle(request, other)), "{request:?}");
            let wanted =
                |lock: &Record| lock.state == State::Granted && request.conflicts_with(lock);
            assert!(!records().any(wanted), "{request:?}");
        }
    }

    /// Nobody is overtaken: what stands in a request's way was there before it. So the record with the
    /// smallest handle never waits.
    fn check_waits(&mut self) {
        let records = &self.table.records;
        assert!(!records.first().map_or(false, Record::waiting), "{:?}", records[0]);
        for request in records.iter().filter(|record| record.waiting()) {
            let obstacles = || records.iter().filter(|other| obstacle(request, other));
            assert!(obstacles().all(|other| other.handle < request.handle), "{request:?}");
            self.seen[3] += u64::from(obstacles().all(Record::waiting));
        }
    }

    /// Grants in rising handle, then revocations in rising handle, at most one event for a record.
    fn check_events(&mut self, Accepted { handle, events }: &Accepted) {
        let order: Vec<_> = events.iter().map(|e| (e.kind as u64, e.record.handle)).collect();
        assert!(order.windows(2).all(|pair| pair[0] < pair[1]), "{order:?}");
        for (place, event) in events.iter().enumerate() {
            let record = &event.record;
            let same = |other: &&Event| other.record.handle == record.handle;
            assert_eq!(events.iter().filter(same).count(), 1);
            assert!(self.table.records.contains(record));
            match event.kind {
                Kind::Grant => self.check_grant(record, &events[place + 1..], *handle),
                Kind::Revocation => {
                    self.seen[2] += 1;
                    assert_eq!(record.state, State::Asked);
                    let wants = |r: &Record| r.waiting() && r.conflicts_with(record);
                    assert!(self.table.records.iter().any(wants));
                }
            }
        }
    }

    /// A grant is judged on the table as it stood then: what was granted after it still waits.
    fn check_grant(&mut self, granted: &Record, later: &[Event], served: u64) {
        let asked = self.asked[granted.handle as usize - 1];
        let is_later =
            |r: &Record| later.iter().any(|e| e.kind == Kind::Grant && e.record.handle == r.handle);
        let then = |r: &Record| if is_later(r) { self.asked[r.handle as usize - 1] } else { *r };
        let records = self.table.records.iter().filter(|r| r.handle != granted.handle);
        let others: Vec<Record> = records.map(then).collect();

        let canceling = others.iter().any(|other| successor(&asked, other));
        let state = if canceling { State::Canceling } else { State::Granted };
        let (number, last) = (granted.number, granted.last);
        assert_eq!(*granted, Record { state, number, last, marked: false, ..asked });
        assert!(!others.iter().any(|other| obstacle(&asked, other)));
        if canceling {
            self.seen[0] += 1;
            assert_eq!(last, asked.last);
        } else if asked.marked {
            self.marked[usize::from(asked.handle != served)] += 1;
            assert_eq!(last, asked.last);
        } else {
            assert!(last >= asked.last);
            assert!(!others.iter().any(|other| granted.conflicts_with(other)));
            if last != EOF {
                self.seen[1] += 1;
                let more = Record { last: last + 1, ..*granted };
                assert!(others.iter().any(|other| more.conflicts_with(other)));
            }
        }

        if asked.mode == Mode::PR {
            assert_eq!(number, 0);
        } else {
            let write_grants = &mut self.write_grants[asked.stripe as usize];
            *write_grants += 1;
            assert_eq!(number, *write_grants);
        }
    }
}

/// The sessions differ in how fast their tables fill; the fullest meet the limit of 256 records. The
/// last two have lists among their messages.
#[test]
fn sessions() {
    scope(|threads| {
        for (requests, calls) in [(3, 300), (4, 300), (6, 300), (9, 320)] {
            threads.spawn(move || play(requests, calls, false));
        }
        for requests in [2, 4] {
            threads.spawn(move || play(requests, 200, true));
        }
    });
}

fn play(requests: u64, calls: usize, lists: bool) {
    let (mut seen, mut marked) = ([0; 4], [0; 2]);
    for_seeds(0..12, |random| {
        let mut session = Session::new();
        for _ in 0..calls {
            if lists && random.once_in(10) {
                session.list(random);
            } else {
                session.serve(message(&session.table, random, requests));
            }
        }
        if !lists {
            assert!(session.seen.iter().all(|&times| times > 0), "{:?}", session.seen);
        }
        seen = std::array::from_fn(|place| seen[place] + session.seen[place]);
        marked = std::array::from_fn(|place| marked[place] + session.marked[place]);
    });
    assert!(seen.iter().all(|&times| times > 0), "{seen:?}");
    assert!(marked.iter().all(|&times| (times > 10) == lists), "{marked:?}");
}

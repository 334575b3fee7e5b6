//! Calls under test beside the model. Both get the same buffers and numbers, and must agree on the
//! answer and on every byte of every buffer, also of a refused call.
//!
//! The caller's buffers keep what the model made of them, which is then what the calls under test
//! made of them too.

use crate::calls::{Calls, MODEL};
use crate::entries::Item;
use crate::model::locks::{decode, event_at, Answer};
use crate::model::serve::Message;
use crate::model::stripe::Piece;
use std::collections::BTreeSet;
use std::fmt::{Arguments, Debug};
use std::panic::{catch_unwind, AssertUnwindSafe};

pub struct Beside {
    calls: Calls,
    /// How many calls were answered with each number, 0 for accepted.
    answers: [u64; 20],
    /// How many items of accepted lists were answered with each number.
    items: [u64; 20],
    /// The kind, mode and state of each event that came.
    pub events: BTreeSet<[u32; 3]>,
}

impl Beside {
    pub fn new(calls: Calls) -> Beside {
        Beside { calls, answers: [0; 20], items: [0; 20], events: BTreeSet::new() }
    }

    fn compared(&self) -> u64 {
        self.answers.iter().sum()
    }

    /// What another compared is counted here too.
    pub fn join(&mut self, other: Beside) {
        let here = self.answers.iter_mut().chain(&mut self.items);
        for (here, there) in here.zip(other.answers.into_iter().chain(other.items)) {
            *here += there;
        }
        self.events.extend(other.events);
    }

    /// At least so many calls were compared, and their answers were these numbers and no others.
    pub fn reached(&self, calls: u64, answers: &[usize]) {
        assert!(self.compared() >= calls, "{} calls", self.compared());
        assert_eq!(numbers(&self.answers), answers);
    }

    /// The items of accepted lists were at least so many, and their answers these numbers and no others.
    pub fn reached_items(&self, items: u64, answers: &[usize]) {
        let compared: u64 = self.items.iter().sum();
        assert!(compared >= items, "{compared} items");
        assert_eq!(numbers(&self.items), answers);
    }

    /// Serves one message. The table of an accepted one stays sound.
    pub fn serve(&mut self, table: &mut [u8], events: &mut [u8], message: Message) -> Answer {
        let (mut lent_table, mut lent_events) = (self.lend(table), self.lend(events));
        let tested = self.calls.serve(lent_table.own(), lent_events.own(), message);
        let answer = MODEL.serve(table, events, message);
        let buffers = [("table", lent_table, &*table), ("events", lent_events, &*events)];
        self.agree(format_args!("{message:?}"), tested, answer, &buffers);
        self.answered(format_args!("{message:?}"), table, events, answer);
        answer
    }

    /// Serves a list. The items too are lent between guards.
    pub fn list(&mut self, table: &mut [u8], events: &mut [u8], items: &mut [Item]) -> Answer {
        let (mut lent_table, mut lent_events) = (self.lend(table), self.lend(events));
        let mut lent_items = Lent::new(items, 1);
        let (t, e, i) = (lent_table.own(), lent_events.own(), lent_items.own());
        let tested = (self.calls.request_list)(t, e, i);
        let asked = items.to_vec();
        let answer = (MODEL.request_list)(table, events, items);
        let buffers = [("table", lent_table, &*table), ("events", lent_events, &*events)];
        self.agree(format_args!("list {asked:?}"), tested, answer, &buffers);
        if let Some(at) = lent_items.differs(items) {
            let (place, item) = (self.compared(), items.get(at as usize));
            panic!("call {place}, list {asked:?}: item {at} isn't the model's {item:?}");
        }
        self.answered(format_args!("list {asked:?}"), table, events, answer);
        if answer.refusal == 0 {
            items.iter().for_each(|item| self.items[item.refusal as usize] += 1);
        }
        answer
    }

    /// Counts the answer and its events. The table of an accepted call stays sound.
    fn answered(&mut self, call: Arguments, table: &[u8], events: &[u8], answer: Answer) {
        self.answers[answer.refusal as usize] += 1;
        if answer.refusal == 0 {
            assert!(decode(table).is_some(), "{call} leaves a table that isn't sound");
            let integer = |at: usize| u32::from_be_bytes(events[at..at + 4].try_into().unwrap());
            let starts = (0..answer.events as usize).map(event_at);
            self.events.extend(starts.map(|at| [integer(at), integer(at + 16), integer(at + 20)]));
        }
    }

    pub fn note(
        &mut self,
        map: &mut [u8],
        log: &mut [u8],
        piece: Piece<u64>,
        image_length: u64,
    ) -> u64 {
        let (mut lent_map, mut lent_log) = (self.lend(map), self.lend(log));
        let (m, l) = (lent_map.own(), lent_log.own());
        let tested = (self.calls.note)(m, l, piece, image_length);
        let answer = (MODEL.note)(map, log, piece, image_length);
        self.agree(
            format_args!("note {piece:?}, image length {image_length}"),
            tested,
            answer,
            &[("map", lent_map, map), ("log", lent_log, log)],
        );
        self.answers[answer as usize] += 1;
        answer
    }

    pub fn write(&mut self, map: &[u8], image: &mut [u8], piece: Piece<&[u8]>) -> u64 {
        let (mut lent_map, mut lent_image) = (self.lend(map), self.lend(image));
        let mut lent_bytes = self.lend(piece.bytes);
        let (m, i, bytes) = (lent_map.own(), lent_image.own(), &*lent_bytes.own());
        let tested = (self.calls.write)(m, i, Piece { bytes, ..piece });
        let answer = (MODEL.write)(map, image, piece);
        let (outline, image_length) = (piece.outline(), image.len());
        self.agree(
            format_args!("write {outline:?}, image length {image_length}"),
            tested,
            answer,
            &[
                ("map", lent_map, map),
                ("image", lent_image, image),
                ("piece", lent_bytes, piece.bytes),
            ],
        );
        self.answers[answer as usize] += 1;
        answer
    }

    pub fn restart(&mut self, map: &mut [u8], log: &[u8]) -> u64 {
        let (mut lent_map, mut lent_log) = (self.lend(map), self.lend(log));
        let tested = (self.calls.restart)(lent_map.own(), lent_log.own());
        let answer = (MODEL.restart)(map, log);
        let buffers = [("map", lent_map, &*map), ("log", lent_log, log)];
        self.agree(format_args!("restart"), tested, answer, &buffers);
        self.answers[answer as usize] += 1;
        answer
    }

    pub fn compact(&mut self, old_log: &[u8], new_log: &mut [u8]) -> u64 {
        let (mut lent_old, mut lent_new) = (self.lend(old_log), self.lend(new_log));
        let tested = (self.calls.compact)(lent_old.own(), lent_new.own());
        let answer = (MODEL.compact)(old_log, new_log);
        let buffers = [("old log", lent_old, old_log), ("new log", lent_new, &*new_log)];
        self.agree(format_args!("compact"), tested, answer, &buffers);
        self.answers[answer as usize] += 1;
        answer
    }

    /// A copy to lend. From call to call it begins at another address modulo 16.
    fn lend(&self, buffer: &[u8]) -> Lent<u8> {
        Lent::new(buffer, 1 + self.compared() as usize % 16)
    }

    /// Both answers and all bytes are the same; if not, the test ends with the call and what differs.
    fn agree<A: PartialEq + Debug>(
        &self,
        call: Arguments,
        tested: A,
        answer: A,
        buffers: &[(&str, Lent<u8>, &[u8])],
    ) {
        let place = self.compared();
        assert!(tested == answer, "call {place}, {call}: {tested:?}, by the model {answer:?}");
        for (name, lent, bytes) in buffers {
            if let Some(at) = lent.differs(bytes) {
                panic!("call {place}, {call}: byte {at} of the {name} isn't the model's");
            }
        }
    }
}

/// The numbers that were answered at all.
fn numbers(answers: &[u64; 20]) -> Vec<usize> {
    (0..20).filter(|&answer| answers[answer] > 0).collect()
}

/// Whether a scene finds these calls out: it ends at a call that isn't the model's.
pub fn finds_out(calls: Calls, scene: impl FnOnce(&mut Beside)) -> bool {
    let mut beside = Beside::new(calls);
    catch_unwind(AssertUnwindSafe(|| scene(&mut beside))).is_err()
}

/// A copy of a buffer between guards, lent to the calls under test in the buffer's place.
/// No call touches a byte before or after what it is lent.
struct Lent<T> {
    guarded: Vec<T>,
    start: usize,
}

/// What stands before and after a buffer of bytes, or of items.
trait Guarded: Copy + PartialEq {
    const GUARD: Self;
}

impl Guarded for u8 {
    const GUARD: u8 = 0xA5;
}

impl Guarded for Item {
    const GUARD: Item = Item {
        client: 1,
        stripe: 2,
        mode: 3,
        first: 4,
        last: 5,
        refusal: u64::MAX,
        handle: u64::MAX,
        events: u64::MAX,
    };
}

impl<T: Guarded> Lent<T> {
    fn new(buffer: &[T], start: usize) -> Lent<T> {
        let guards = [T::GUARD; 16];
        Lent { guarded: [&guards[..start], buffer, &guards[..]].concat(), start }
    }

    fn own(&mut self) -> &mut [T] {
        let end = self.guarded.len() - 16;
        &mut self.guarded[self.start..end]
    }

    /// The first place that differs from the buffer as the model left it; before place 0 and after
    /// the last one stand the guards.
    fn differs(&self, buffer: &[T]) -> Option<isize> {
        let (before, rest) = self.guarded.split_at(self.start);
        let (lent, after) = rest.split_at(buffer.len());
        let guard = |other: &T| *other == T::GUARD;
        if before.iter().all(guard) && lent == buffer && after.iter().all(guard) {
            return None;
        }
        let expected = Lent::new(buffer, self.start).guarded;
        let at = (0..expected.len()).find(|&at| self.guarded[at] != expected[at])?;
        Some(at as isize - self.start as isize)
    }
}

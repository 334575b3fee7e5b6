//! The calls as one value, so that a test or a measurement is written once for all who have
//! them: the model, the proved library, and the shipped Rust.

use crate::entries::Item;
use crate::model::locks::Answer;
use crate::model::runs::Age;
use crate::model::serve::Message;
use crate::model::stripe::Piece;
use crate::{entries, model, shipped};

pub type Request = fn(&mut [u8], &mut [u8], u64, u64, u64, u64, u64) -> Answer;
/// Acknowledge, downgrade and release, which name a handle.
pub type Naming = fn(&mut [u8], &mut [u8], u64, u64) -> Answer;
/// The items are those of the C entry, so that no call is measured with a copy of them.
pub type RequestList = fn(&mut [u8], &mut [u8], &mut [Item]) -> Answer;
pub type Note = fn(&mut [u8], &mut [u8], Piece<u64>, u64) -> u64;
pub type Write = fn(&[u8], &mut [u8], Piece<&[u8]>) -> u64;
pub type Restart = fn(&mut [u8], &[u8]) -> u64;
pub type Compact = fn(&[u8], &mut [u8]) -> u64;

#[derive(Clone, Copy)]
pub struct Calls {
    pub request: Request,
    pub acknowledge: Naming,
    pub downgrade: Naming,
    pub release: Naming,
    pub request_list: RequestList,
    pub note: Note,
    pub write: Write,
    pub restart: Restart,
    pub compact: Compact,
}

impl Calls {
    /// Makes the call that a message names.
    pub fn serve(&self, table: &mut [u8], events: &mut [u8], message: Message) -> Answer {
        match message {
            Message::Request { client, stripe, mode, first, last } => {
                (self.request)(table, events, client, stripe, mode, first, last)
            }
            Message::Acknowledge { client, handle } => {
                (self.acknowledge)(table, events, client, handle)
            }
            Message::Downgrade { client, handle } => {
                (self.downgrade)(table, events, client, handle)
            }
            Message::Release { client, handle } => (self.release)(table, events, client, handle),
        }
    }
}

pub const MODEL: Calls = Calls {
    request: model::locks::request,
    acknowledge: model::locks::acknowledge,
    downgrade: model::locks::downgrade,
    release: model::locks::release,
    request_list: model_list,
    note: model::stripe::note,
    write: model::stripe::write,
    restart: model::stripe::restart,
    compact: model::stripe::compact,
};

/// The model has items of its own.
fn model_list(table: &mut [u8], events: &mut [u8], items: &mut [Item]) -> Answer {
    let mut own: Vec<model::list::Item> = items
        .iter()
        .map(|&Item { client, stripe, mode, first, last, refusal, handle, events }| {
            model::list::Item { client, stripe, mode, first, last, refusal, handle, events }
        })
        .collect();
    let answer = model::list::request_list(table, events, &mut own);
    for (item, own) in items.iter_mut().zip(own) {
        let model::list::Item { client, stripe, mode, first, last, refusal, handle, events } = own;
        *item = Item { client, stripe, mode, first, last, refusal, handle, events };
    }
    answer
}

pub const LIBRARY: Calls = Calls {
    request: |table, events, client, stripe, mode, first, last| {
        answer(entries::request(table, events, client, stripe, mode, first, last))
    },
    acknowledge: |table, events, client, handle| {
        answer(entries::acknowledge(table, events, client, handle))
    },
    downgrade: |table, events, client, handle| {
        answer(entries::downgrade(table, events, client, handle))
    },
    release: |table, events, client, handle| {
        answer(entries::release(table, events, client, handle))
    },
    request_list: |table, events, items| answer(entries::request_list(table, events, items)),
    note: |map, log, Piece { first, bytes, age: Age { number, pass } }, image_length| {
        entries::note(map, log, first, bytes, number, pass, image_length)
    },
    write: |map, image, Piece { first, bytes, age: Age { number, pass } }| {
        entries::write(map, image, first, bytes, number, pass)
    },
    restart: entries::restart,
    compact: entries::compact,
};

fn answer(entries::Answer { refusal, handle, events }: entries::Answer) -> Answer {
    Answer { refusal, handle, events }
}

pub const SHIPPED: Calls = Calls {
    request: shipped::locks::request,
    acknowledge: shipped::locks::acknowledge,
    downgrade: shipped::locks::downgrade,
    release: shipped::locks::release,
    request_list: shipped::locks::request_list,
    note: shipped::stripe::note,
    write: shipped::stripe::write,
    restart: shipped::stripe::restart,
    compact: shipped::stripe::compact,
};

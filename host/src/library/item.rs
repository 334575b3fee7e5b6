//! The items of a list.

use super::codes::Handle;
use super::refusal::{accepted, Refusal};
pub use crate::entries::Item;

impl Item {
    /// Asks for a range of a stripe, both ends included. The mode is a [`Mode`](crate::Mode) or a number
    /// as it came over the network.
    pub fn new(client: u64, stripe: u64, mode: impl Into<u64>, first: u64, last: u64) -> Item {
        Item { client, stripe, mode: mode.into(), first, last, ..Item::default() }
    }

    /// What an accepted list answered this item: its handle, or why it was refused. Its `events` is then
    /// how many events of the list are its own. None of an item that no list answered yet.
    pub fn answered(&self) -> Option<Result<Handle, Refusal>> {
        match (accepted(self.refusal), self.handle) {
            (Err(refusal), _) => Some(Err(refusal)),
            (Ok(()), 0) => None,
            (Ok(()), handle) => Some(Ok(Handle(handle))),
        }
    }
}

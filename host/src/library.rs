//! The library for Rust programs: the entries with types over their bytes and numbers.
//!
//! `table` serves the four messages and lists of requests, `map` notes, writes and restarts, `log` compacts; `records`,
//! `runs` and `events` read what the entries leave. Nothing here decides anything: each call is one call of
//! the proved library, and nothing here is taken from the model.

#[macro_use]
mod buffer;
mod codes;
mod events;
mod item;
mod log;
mod map;
mod piece;
mod records;
mod refusal;
mod runs;
mod table;

pub use codes::{Age, Handle, Mode, Number, Pass, State};
pub use events::{Answer, Event, EventBuffer, Events, Kind, ListEventBuffer};
pub use item::Item;
pub use log::Log;
pub use map::Map;
pub use piece::Piece;
pub use records::{Record, Records};
pub use refusal::Refusal;
pub use runs::{Run, Runs};
pub use table::Table;

/// The last byte that a range can have, 9,223,372,036,854,775,807.
pub const EOF: u64 = 9_223_372_036_854_775_807;

//! Gilboreth for Rust: a proved lock table and note-and-write path for a scratch store.
//!
//! Clients cache what they write and flush it later, so pieces reach a stripe in no fixed order. A
//! [`Table`] grants locks, each write grant with a number. A piece comes with its grant's number and
//! with a [`Pass`], which the client counts under each lock; it is noted in the [`Log`] and the [`Map`],
//! and then written to the image. An old flush that arrives last, even after a restart, doesn't beat a
//! later grant, nor a later pass of its own lock:
//!
//! ```
//! use gilboreth_host::{EventBuffer, Handle, Log, Map, Mode, Pass, Piece, Table};
//!
//! // Client 0 holds the bytes 0 to 9. Client 1 asks for 4 to 7, and is granted them as soon as
//! // client 0 has acknowledged, before it has flushed.
//! let (mut table, mut events) = (Table::new(), EventBuffer::new());
//! let mut answer = table.request(&mut events, 0, 0, Mode::NBW, 0, 9)?;
//! let old = answer.events.next().unwrap().record.number;
//! table.request(&mut events, 1, 0, Mode::NBW, 4, 7)?;
//! let mut answer = table.acknowledge(&mut events, 0, Handle(1))?;
//! let later = answer.events.next().unwrap().record.number;
//!
//! // Client 1 flushes first. It keeps its lock, writes byte 6 anew, and flushes it in its second pass.
//! let (mut map, mut log) = (Map::new(), Log::new());
//! let mut image = *b"..........";
//! let first_pass = Piece { first: 4, bytes: &b"LLLL"[..], number: later, pass: Pass(1) };
//! let second_pass = Piece { first: 6, bytes: &b"M"[..], number: later, pass: Pass(2) };
//! for piece in [first_pass, second_pass] {
//!     map.note(&mut log, piece.outline(), 10)?;
//!     map.write(&mut image, piece)?;
//! }
//!
//! // The server is cut: the map is lost, image and log stay. Then the old flush arrives, and client 1
//! // sends its first pass again.
//! let mut map = Map::new();
//! map.restart(&log)?;
//! let old = Piece { first: 0, bytes: &b"OOOOOOOOOO"[..], number: old, pass: Pass(1) };
//! for piece in [old, first_pass] {
//!     map.note(&mut log, piece.outline(), 10)?;
//!     map.write(&mut image, piece)?;
//! }
//! assert_eq!(&image, b"OOOOLLMLOO");
//! # Ok::<(), gilboreth_host::Refusal>(())
//! ```
//!
//! A log that fills up is compacted into a second one, to which the host turns: [`Log::compact`].
//!
//! Each call is one call of the proved library, on buffers of fixed length that are lent to it. A
//! call that is refused answers a [`Refusal`] and changes nothing. What the library promises, for
//! every input, is in docs/READING.md.
//!
//! # Linking
//!
//! The crate links `libgilboreth.a`, which is for x86-64, from the repository's target/staticlib, where
//! `tools/archive` puts it. `GIL_ARCHIVE_DIR` names another directory, as where the library
//! is installed.
//!
//! # What is where
//!
//! The library for other programs is what stands at the top of this crate. [`entries`] is the same
//! calls on plain slices and numbers, for buffers of any length.
//!
//! The rest is here to judge the library, and no program needs it:
//!
//! - [`model`] is documents 01 and 02, as far as 02 is built, in Rust, written from them alone. It
//!   shares no code with what stands above, so that an error would have to be made twice to pass.
//! - [`shipped`] is the same calls as an engineer would ship them in plain Rust, the yardstick of the
//!   benchmark. It takes its sizes and refusal numbers from the model, and a list's item from [`entries`].
//! - [`calls`], [`beside`], [`ages`], [`logs`] and [`random`] are what tests and benchmark share: the
//!   calls as one value, a call beside the model's, ages that meet, logs of every kind, and seeds.

pub mod ages;
pub mod beside;
pub mod calls;
pub mod entries;
mod library;
pub mod logs;
pub mod model;
pub mod random;
pub mod shipped;

pub use library::*;

//! The model of document 01 and of requests #101 to #103 of document 02, written from them and from nothing else.
//!
//! `modes`, `table` and `serve` are the rules for locks, `runs` those for maps and logs.
//! `locks`, `list` and `stripe` are the same on bytes, as the C entries have them.
//! `line` is the line program.

pub mod line;
pub mod list;
pub mod locks;
pub mod modes;
pub mod refusal;
pub mod runs;
pub mod serve;
pub mod stripe;
pub mod table;
pub mod xdr;

/// The last byte that a range can have.
pub const EOF: u64 = 9_223_372_036_854_775_807;

/// The greatest handle and the greatest number.
pub const HIGHEST: u64 = 4_294_967_295;

/// The greatest pass.
pub const HIGHEST_PASS: u64 = 4_294_967_295;

/// Ranges include both ends.
pub fn valid_range(first: u64, last: u64) -> bool {
    first <= last && last <= EOF
}

//! The calls as one would ship them in plain Rust: the yardstick for the library's speed.
//!
//! Every call tests the lent buffers as the rules ask and changes them in place. Only restart and
//! compaction allocate, to sort the entries; a message reads the records once, into an array on the
//! stack. `runs` reads and tests maps and logs, `stripe` notes, writes, restarts and compacts; `table`
//! reads, tests and changes the lock table, `locks` serves the four messages and the list.

pub mod locks;
mod numbers;
mod runs;
pub mod stripe;
mod table;

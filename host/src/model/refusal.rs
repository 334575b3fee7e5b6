//! The refusal numbers, and when each is given.

/// A refusal number, 1 to 19.
pub type Refusal = u64;

/// The event buffer is under 11,268 bytes, for a list under 22,532.
pub const EVENT_BUFFER: Refusal = 1;
/// The table is of another length, or not sound.
pub const TABLE: Refusal = 2;
/// The client is above 63.
pub const CLIENT: Refusal = 3;
/// The stripe is above 15.
pub const STRIPE: Refusal = 4;
/// The mode is not 1 to 4.
pub const MODE: Refusal = 5;
/// First is above last, or last above EOF.
pub const RANGE: Refusal = 6;
/// 4,294,967,295 handles are issued.
pub const HANDLES: Refusal = 7;
/// 256 records are in use.
pub const RECORDS: Refusal = 8;
/// There is no record with this handle.
pub const NO_RECORD: Refusal = 9;
/// The record is of another client.
pub const OTHER_CLIENT: Refusal = 10;
/// An acknowledge not in state 2; a downgrade unless canceling BW or PW.
pub const STATE: Refusal = 11;
/// The map is of another length, or not sound.
pub const MAP: Refusal = 12;
/// The log is of another length, or not sound; of a compaction also the second buffer of another length.
pub const LOG: Refusal = 13;
/// The piece is of length 0, past the image or past EOF.
pub const PIECE: Refusal = 14;
/// The number or the pass is 0 or above 4,294,967,295.
pub const NUMBER: Refusal = 15;
/// The resulting map needs over 1,024 runs.
pub const RUNS: Refusal = 16;
/// The log holds 2,048 entries.
pub const ENTRIES: Refusal = 17;
/// Some byte of the piece has a smaller age in the map.
pub const SMALLER: Refusal = 18;
/// The list has more than 64 items.
pub const ITEMS: Refusal = 19;

/// Refuses with this number when the condition holds.
/// A row of these in the document's order lets the first hit answer.
pub fn refuse(number: Refusal, when: bool) -> Result<(), Refusal> {
    if when {
        Err(number)
    } else {
        Ok(())
    }
}

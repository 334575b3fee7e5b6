//! The refusals: each has a number, a name, and a sentence that says what to do about it.

use std::error::Error;
use std::fmt::{Display, Formatter, Result as Formatted};

/// Why a call was refused. A refused call changes nothing in any buffer.
///
/// A request is judged by 1 to 8 in this order, the other messages by 1, 2, 3, 9, 10, 11, a list by 1,
/// 2, 19 and each of its items by 3 to 8, a note by 12 to 17, a write by 12, 14, 15, 18, a restart by 12
/// (length only), 13, 16, a compaction by 13, 16. The first hit answers.
///
/// ```
/// use gilboreth_host::{EventBuffer, Mode, Refusal, Table};
///
/// let (mut table, mut events) = (Table::new(), EventBuffer::new());
/// let refusal = table.request(&mut events, 64, 0, Mode::PR, 0, 9).unwrap_err();
/// assert_eq!((refusal, refusal.number()), (Refusal::Client, 3));
/// assert_eq!(refusal.text(), "The client is above 63: number the clients from 0 to 63.");
/// assert!(table == Table::new());
/// ```
#[derive(Clone, Copy, Debug, PartialEq, Eq, Hash)]
pub enum Refusal {
    /// The event buffer is under 11,268 bytes, for a list under 22,532.
    EventBuffer = 1,
    /// The table is of another length, or not sound.
    Table = 2,
    /// The client is above 63.
    Client = 3,
    /// The stripe is above 15.
    Stripe = 4,
    /// The mode is not 1 to 4.
    Mode = 5,
    /// First is above last, or last above EOF.
    Range = 6,
    /// 4,294,967,295 handles are issued.
    Handles = 7,
    /// 256 records are in use.
    Records = 8,
    /// There is no record with this handle.
    NoRecord = 9,
    /// The record is of another client.
    OtherClient = 10,
    /// An acknowledge not in state 2; a downgrade unless canceling BW or PW.
    State = 11,
    /// The map is of another length, or not sound.
    Map = 12,
    /// The log is of another length, or not sound; of a compaction also the second buffer of another length.
    Log = 13,
    /// The piece is of length 0, past the image or past EOF.
    Piece = 14,
    /// The number or the pass is 0 or above 4,294,967,295.
    Number = 15,
    /// The resulting map needs over 1,024 runs.
    Runs = 16,
    /// The log holds 2,048 entries.
    Entries = 17,
    /// Some byte of the piece has a smaller age in the map: a smaller number, or its number and a smaller pass.
    Smaller = 18,
    /// The list has more than 64 items.
    Items = 19,
}

impl Refusal {
    /// All of them, in the order of their numbers.
    pub const ALL: [Refusal; 19] = [
        Refusal::EventBuffer,
        Refusal::Table,
        Refusal::Client,
        Refusal::Stripe,
        Refusal::Mode,
        Refusal::Range,
        Refusal::Handles,
        Refusal::Records,
        Refusal::NoRecord,
        Refusal::OtherClient,
        Refusal::State,
        Refusal::Map,
        Refusal::Log,
        Refusal::Piece,
        Refusal::Number,
        Refusal::Runs,
        Refusal::Entries,
        Refusal::Smaller,
        Refusal::Items,
    ];

    /// Its number, 1 to 19.
    pub fn number(self) -> u64 {
        self as u64
    }

    /// The refusal with this number, 1 to 19.
    pub fn of_number(number: u64) -> Option<Refusal> {
        Refusal::ALL.into_iter().find(|refusal| refusal.number() == number)
    }

    /// What is wrong, and what to do about it: the sentence that C has too.
    pub fn text(self) -> &'static str {
        SENTENCES[self as usize]
    }
}

/// The header's sentences, by number; 0 is accepted.
const SENTENCES: &[&str] = include!(concat!(env!("OUT_DIR"), "/sentences.rs"));

impl Display for Refusal {
    fn fmt(&self, f: &mut Formatter) -> Formatted {
        write!(f, "refusal {}. {}", self.number(), self.text())
    }
}

impl Error for Refusal {}

/// What an entry's number says: 0 is accepted.
pub fn accepted(number: u64) -> Result<(), Refusal> {
    match number {
        0 => Ok(()),
        _ => Err(Refusal::of_number(number).expect("an entry answers 0 to 19")),
    }
}

//! The log of a stripe, and its compaction.

use super::buffer::array;
use super::refusal::{accepted, Refusal};
use super::runs::{Run, Runs};
use crate::entries;
use std::fmt::{Debug, Formatter, Result as Formatted};
use std::ops::Range;

const ENTRIES: usize = 2_048;

buffer! {
    /// The log of a stripe, 49,156 bytes: the noted pieces, in note order. All zeros is the empty log.
    ///
    /// It is what lives through a restart. A note changes it in the new entry's 24 bytes and in the
    /// count. A host that puts it down puts the entry down first, and then the count as one store:
    ///
    /// ```
    /// use gilboreth_host::{Log, Map, Number, Pass, Piece};
    ///
    /// // What is on disk. A cut between two calls of `put` is harmless.
    /// let mut disk = Log::new();
    /// let mut put = |place: std::ops::Range<usize>, log: &Log| {
    ///     disk.bytes_mut()[place.clone()].copy_from_slice(&log.bytes()[place]);
    /// };
    ///
    /// let (mut map, mut log) = (Map::new(), Log::new());
    /// let piece = Piece { first: 4, bytes: 4, number: Number(2), pass: Pass(1) };
    /// map.note(&mut log, piece, 10)?;
    /// put(Log::entry(log.entries().len() - 1), &log);
    /// put(Log::COUNT, &log);
    /// assert!(disk == log);
    /// # Ok::<(), gilboreth_host::Refusal>(())
    /// ```
    Log, 4 + Run::BYTES * ENTRIES
}

impl Log {
    /// Where the count stands.
    pub const COUNT: Range<usize> = 0..4;

    /// Where an entry stands; the first has place 0.
    pub fn entry(place: usize) -> Range<usize> {
        let at = 4 + Run::BYTES * place;
        at..at + Run::BYTES
    }

    /// Fills a second log, whatever it was, with the runs of this log's map for entries, rising.
    ///
    /// It says of each byte what this one says, with at most 1,024 entries, so at least 1,024 notes fit
    /// after them. The host puts it down beside the old one, waits until it is durable, and turns to it
    /// by one store. No note comes between the call and that store: its entry would stand in the old
    /// log alone, and be lost. A cut finds either log; after one, compact anew.
    ///
    /// ```
    /// use gilboreth_host::{Log, Map, Number, Pass, Piece, Run};
    ///
    /// // What is on disk: two logs, and the word that says which of them counts.
    /// let mut disk = ([Log::new(), Log::new()], 0);
    ///
    /// let (mut map, mut log) = (Map::new(), Log::new());
    /// let (number, pass) = (Number(7), Pass(1));
    /// for first in 0..2_048 {
    ///     map.note(&mut log, Piece { first, bytes: 1, number, pass }, 4_096)?;
    /// }
    /// assert_eq!((log.notes_that_fit(), map.runs().len()), (0, 1));
    ///
    /// let mut new = Log::new();
    /// log.compact(&mut new)?;
    /// disk.0[1] = new.clone(); // and wait until it is durable
    /// disk.1 = 1;
    /// log = new;
    /// assert!(log.entries().eq([Run { first: 0, last: 2_047, number, pass }]));
    /// assert_eq!(log.notes_that_fit(), 2_047);
    ///
    /// // The map is still the log's.
    /// let mut again = Map::new();
    /// again.restart(&disk.0[disk.1])?;
    /// assert!(again == map);
    /// # Ok::<(), gilboreth_host::Refusal>(())
    /// ```
    pub fn compact(&self, new: &mut Log) -> Result<(), Refusal> {
        accepted(entries::compact(self.bytes(), new.bytes_mut()))
    }

    /// How many notes fit before one is refused with 17. Compact before there is no room left.
    pub fn notes_that_fit(&self) -> usize {
        ENTRIES - self.entries().len()
    }

    /// The entries, in note order; of a log that was compacted, first the runs, rising.
    pub fn entries(&self) -> Runs<'_> {
        Runs(array(self.bytes(), Run::BYTES))
    }
}

impl Debug for Log {
    fn fmt(&self, f: &mut Formatter) -> Formatted {
        f.write_str("Log ")?;
        f.debug_list().entries(self.entries()).finish()
    }
}

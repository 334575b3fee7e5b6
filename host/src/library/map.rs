//! The map of a stripe: note, write and restart.

use super::buffer::array;
use super::codes::{Age, Number, Pass};
use super::log::Log;
use super::piece::Piece;
use super::refusal::{accepted, Refusal};
use super::runs::{Run, Runs};
use crate::entries;
use std::fmt::{Debug, Formatter, Result as Formatted};

const RUNS: usize = 1_024;

buffer! {
    /// The map of a stripe, 24,580 bytes: the greatest noted age of each byte, by runs. All zeros is the
    /// empty map.
    ///
    /// A piece is noted, and then it is written. Pieces come in any order, and each byte is that of
    /// the greatest number, and under one number that of the greatest pass. From document 01, each lock
    /// in its first pass:
    ///
    /// ```
    /// use gilboreth_host::{Log, Map, Number, Pass, Piece, Run};
    ///
    /// let (mut map, mut log) = (Map::new(), Log::new());
    /// let mut image = *b"..........";
    /// let pass = Pass(1);
    /// let pieces: [Piece<&[u8]>; 3] = [
    ///     Piece { first: 0, bytes: b"AAAAAA", number: Number(2), pass },
    ///     Piece { first: 4, bytes: b"BBBB", number: Number(1), pass },
    ///     Piece { first: 5, bytes: b"CCC", number: Number(3), pass },
    /// ];
    /// for piece in pieces {
    ///     map.note(&mut log, piece.outline(), 10)?;
    /// }
    /// for piece in pieces {
    ///     map.write(&mut image, piece)?;
    /// }
    /// assert_eq!(&image, b"AAAAACCC..");
    /// assert!(map.runs().eq([
    ///     Run { first: 0, last: 4, number: Number(2), pass },
    ///     Run { first: 5, last: 7, number: Number(3), pass },
    /// ]));
    /// # Ok::<(), gilboreth_host::Refusal>(())
    /// ```
    Map, 4 + Run::BYTES * RUNS
}

impl Map {
    /// Notes a piece: appends its entry to the log, and raises each byte's age to the piece's where that
    /// is greater.
    pub fn note(
        &mut self,
        log: &mut Log,
        piece: Piece<u64>,
        image_length: u64,
    ) -> Result<(), Refusal> {
        let (map, log) = (self.bytes_mut(), log.bytes_mut());
        let Piece { first, bytes, number, pass } = piece;
        accepted(entries::note(map, log, first, bytes, number.0, pass.0, image_length))
    }

    /// Writes a piece: stores its byte in the image exactly where the map's number and pass are the
    /// piece's.
    ///
    /// Where the map has a greater age the piece is too late, and stores nothing there. Where it has a
    /// smaller one the piece was never noted, and the whole write is refused with 18.
    pub fn write(&self, image: &mut [u8], piece: Piece<&[u8]>) -> Result<(), Refusal> {
        let Piece { first, bytes, number, pass } = piece;
        accepted(entries::write(self.bytes(), image, first, bytes, number.0, pass.0))
    }

    /// Fills the map anew with the log's map, whatever it was.
    ///
    /// After any cut it comes first: neither a note nor a write before it was accepted.
    ///
    /// ```
    /// use gilboreth_host::{Log, Map, Number, Pass, Piece};
    ///
    /// let (mut map, mut log) = (Map::new(), Log::new());
    /// let piece = Piece { first: 4, bytes: 4, number: Number(2), pass: Pass(1) };
    /// map.note(&mut log, piece, 10)?;
    /// let mut again = Map::new();
    /// again.restart(&log)?;
    /// assert!(again == map);
    /// # Ok::<(), gilboreth_host::Refusal>(())
    /// ```
    pub fn restart(&mut self, log: &Log) -> Result<(), Refusal> {
        accepted(entries::restart(self.bytes_mut(), log.bytes()))
    }

    /// How many pieces can be noted, wherever they lie and whatever their ages, before one may be
    /// refused with 16: 512 less the runs, or none.
    ///
    /// The map of n entries has at most 2n - 1 runs, and of 512 that is below 1,024. A piece may add many
    /// at once: an old one fills every gap between newer runs. Compaction makes the log smaller, not the
    /// map. A holder that can't note can't write and so never releases; so count the pieces that may
    /// still be noted, of holders in all their passes and of waiting write requests, and hand in no write
    /// request of this stripe that brings them above what fits. Once every write lock of it is released
    /// and every noted piece is written, start the log again empty.
    ///
    /// ```
    /// use gilboreth_host::{Log, Map, Number, Pass, Piece};
    ///
    /// let (mut map, mut log, number) = (Map::new(), Log::new(), Number(9));
    /// assert_eq!(map.pieces_that_fit(), 512);
    /// for place in 0..300 {
    ///     let piece = Piece { first: 1 + 2 * place, bytes: 1, number, pass: Pass(2) };
    ///     map.note(&mut log, piece, 4_096)?;
    /// }
    /// assert_eq!((map.runs().len(), map.pieces_that_fit()), (300, 212));
    /// map.note(&mut log, Piece { first: 0, bytes: 601, number, pass: Pass(1) }, 4_096)?;
    /// assert_eq!((map.runs().len(), map.pieces_that_fit()), (601, 0));
    /// # Ok::<(), gilboreth_host::Refusal>(())
    /// ```
    pub fn pieces_that_fit(&self) -> usize {
        (RUNS / 2).saturating_sub(self.runs().len())
    }

    /// The runs, rising.
    pub fn runs(&self) -> Runs<'_> {
        Runs(array(self.bytes(), Run::BYTES))
    }

    /// The age of a byte. A byte in no run has number 0 and pass 0.
    pub fn age_at(&self, byte: u64) -> Age {
        let over = |run: &Run| run.first <= byte && byte <= run.last;
        let none = Age { number: Number(0), pass: Pass(0) };
        self.runs().find(over).map_or(none, |run| run.age())
    }
}

impl Debug for Map {
    fn fmt(&self, f: &mut Formatter) -> Formatted {
        f.write_str("Map ")?;
        f.debug_list().entries(self.runs()).finish()
    }
}

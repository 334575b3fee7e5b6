//! Pieces, which are noted and then written.

use super::codes::{Age, Number, Pass};

/// What a client flushes: bytes from a first byte on, with the number of the lock that they were written
/// under, and the pass, which the client counts. A write takes it with its bytes, a note with how many
/// they are.
///
/// A client flushes, keeps its lock and writes the bytes 3 to 5 again. The first flush is sent once more
/// and arrives last:
///
/// ```
/// use gilboreth_host::{Log, Map, Number, Pass, Piece};
///
/// let (mut map, mut log, mut image) = (Map::new(), Log::new(), *b"..........");
/// let number = Number(1);
/// let old = Piece { first: 2, bytes: &b"aaaa"[..], number, pass: Pass(1) };
/// let new = Piece { first: 3, bytes: &b"bbb"[..], number, pass: Pass(2) };
/// for piece in [old, new, old] {
///     map.note(&mut log, piece.outline(), 10)?;
///     map.write(&mut image, piece)?;
/// }
/// assert_eq!(&image, b"..abbb....");
/// # Ok::<(), gilboreth_host::Refusal>(())
/// ```
#[derive(Clone, Copy, Debug, PartialEq, Eq)]
pub struct Piece<B> {
    pub first: u64,
    pub bytes: B,
    pub number: Number,
    pub pass: Pass,
}

impl<B> Piece<B> {
    /// Its number and its pass.
    pub fn age(&self) -> Age {
        Age { number: self.number, pass: self.pass }
    }
}

impl Piece<&[u8]> {
    /// The piece as it is noted.
    pub fn outline(&self) -> Piece<u64> {
        let Piece { first, bytes, number, pass } = *self;
        Piece { first, bytes: bytes.len() as u64, number, pass }
    }
}

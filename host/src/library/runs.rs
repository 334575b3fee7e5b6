//! Runs of bytes with one age, which maps and logs hold.

use super::buffer::{hyper, unsigned};
use super::codes::{Age, Number, Pass};
use std::iter::FusedIterator;
use std::slice::ChunksExact;

/// A run of a map, or an entry of a log. Its range includes both ends.
#[derive(Clone, Copy, Debug, PartialEq, Eq)]
pub struct Run {
    pub first: u64,
    pub last: u64,
    pub number: Number,
    pub pass: Pass,
}

impl Run {
    pub(super) const BYTES: usize = 24;

    /// Its number and its pass.
    pub fn age(&self) -> Age {
        Age { number: self.number, pass: self.pass }
    }
}

/// The runs of a map, rising, or the entries of a log, in note order.
#[derive(Clone, Debug)]
pub struct Runs<'a>(pub(super) ChunksExact<'a, u8>);

impl Iterator for Runs<'_> {
    type Item = Run;

    fn next(&mut self) -> Option<Run> {
        let bytes = self.0.next()?;
        let (number, pass) = (Number(unsigned(bytes, 16)), Pass(unsigned(bytes, 20)));
        Some(Run { first: hyper(bytes, 0), last: hyper(bytes, 8), number, pass })
    }

    fn size_hint(&self) -> (usize, Option<usize>) {
        self.0.size_hint()
    }
}

impl ExactSizeIterator for Runs<'_> {}
impl FusedIterator for Runs<'_> {}

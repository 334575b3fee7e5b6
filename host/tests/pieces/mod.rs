//! The line program on an input that comes in pieces.

use crate::piped::{finished, program};
use std::os::unix::io::OwnedFd;
use std::os::unix::net::UnixDatagram;
use std::process::Stdio;

/// What the program writes for an input whose every piece comes in one read. A read of a datagram
/// takes just that datagram, and an empty one is the end of the input.
pub fn written_in_pieces(pieces: &[&[u8]]) -> Vec<u8> {
    let (ours, theirs) = UnixDatagram::pair().unwrap();
    let theirs = Stdio::from(OwnedFd::from(theirs));
    let child = program().stdin(theirs).stdout(Stdio::piped()).spawn().unwrap();
    for piece in pieces.iter().filter(|piece| !piece.is_empty()) {
        ours.send(piece).unwrap();
    }
    ours.send(&[]).unwrap();
    finished(child)
}

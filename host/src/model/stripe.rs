//! Note, write, restart and compaction of one stripe, on bytes as the C entries have them.

use super::refusal::{self, refuse, Refusal};
use super::runs::{ages_over, map_of, sound_log, sound_map, Age, Run, ENTRIES, RUNS};
use super::xdr::{array, hyper, put_array, put_hyper, put_unsigned, unsigned, zero};
use super::{EOF, HIGHEST, HIGHEST_PASS};

/// A run is first, last, number, pass.
pub const RUN_BYTES: usize = 8 + 8 + 4 + 4;

/// The exact length of a map.
pub const MAP_BYTES: usize = 4 + RUN_BYTES * RUNS;
/// The exact length of a log.
pub const LOG_BYTES: usize = 4 + RUN_BYTES * ENTRIES;

/// Where a run stands in a map, and an entry in a log; past the last one, where they end.
pub const fn run_at(place: usize) -> usize {
    4 + RUN_BYTES * place
}

/// A piece: its first byte, its bytes, or of a note how many they are, and its age.
#[derive(Clone, Copy, Debug, PartialEq, Eq)]
pub struct Piece<B> {
    pub first: u64,
    pub bytes: B,
    pub age: Age,
}

impl<B> Piece<B> {
    pub const fn new(first: u64, bytes: B, number: u64, pass: u64) -> Piece<B> {
        Piece { first, bytes, age: Age::new(number, pass) }
    }
}

impl Piece<&[u8]> {
    /// The piece as it is noted.
    pub fn outline(&self) -> Piece<u64> {
        Piece { first: self.first, bytes: self.bytes.len() as u64, age: self.age }
    }
}

/// Appends the piece's entry to the log and raises the map's ages to the piece's.
pub fn note(map: &mut [u8], log: &mut [u8], piece: Piece<u64>, image_length: u64) -> u64 {
    answer(try_note(map, log, piece, image_length))
}

/// Stores the piece's bytes in the image where the map's age equals the piece's.
pub fn write(map: &[u8], image: &mut [u8], piece: Piece<&[u8]>) -> u64 {
    answer(try_write(map, image, piece))
}

/// Fills the map buffer with the log's map.
pub fn restart(map: &mut [u8], log: &[u8]) -> u64 {
    answer(try_restart(map, log))
}

/// Fills the second buffer with a log whose entries are the runs of the old log's map.
pub fn compact(old_log: &[u8], new_log: &mut [u8]) -> u64 {
    answer(try_compact(old_log, new_log))
}

fn answer(outcome: Result<(), Refusal>) -> u64 {
    outcome.err().unwrap_or(0)
}

fn try_note(
    map: &mut [u8],
    log: &mut [u8],
    piece: Piece<u64>,
    image_length: u64,
) -> Result<(), Refusal> {
    let mut runs = decode_map(map).ok_or(refusal::MAP)?;
    let count = decode_log(log).ok_or(refusal::LOG)?.len();
    let entry = piece_run(piece, image_length)?;
    runs.push(entry);
    let raised = map_of(&runs);
    refuse(refusal::RUNS, raised.len() > RUNS)?;
    refuse(refusal::ENTRIES, count == ENTRIES)?;
    map.copy_from_slice(&encode_map(&raised));
    put_run(&mut log[run_at(count)..], &entry);
    put_unsigned(log, 0, count as u64 + 1);
    Ok(())
}

fn try_write(map: &[u8], image: &mut [u8], piece: Piece<&[u8]>) -> Result<(), Refusal> {
    let runs = decode_map(map).ok_or(refusal::MAP)?;
    piece_run(piece.outline(), image.len() as u64)?;
    let ages = ages_over(&runs, piece.first, piece.bytes.len());
    refuse(refusal::SMALLER, ages.iter().any(|&under| under < piece.age))?;
    for (at, &byte) in piece.bytes.iter().enumerate() {
        if ages[at] == piece.age {
            image[piece.first as usize + at] = byte;
        }
    }
    Ok(())
}

fn try_restart(map: &mut [u8], log: &[u8]) -> Result<(), Refusal> {
    refuse(refusal::MAP, map.len() != MAP_BYTES)?;
    let entries = decode_log(log).ok_or(refusal::LOG)?;
    let rebuilt = map_of(&entries);
    refuse(refusal::RUNS, rebuilt.len() > RUNS)?;
    map.copy_from_slice(&encode_map(&rebuilt));
    Ok(())
}

fn try_compact(old_log: &[u8], new_log: &mut [u8]) -> Result<(), Refusal> {
    refuse(refusal::LOG, new_log.len() != LOG_BYTES)?;
    let entries = decode_log(old_log).ok_or(refusal::LOG)?;
    let runs = map_of(&entries);
    refuse(refusal::RUNS, runs.len() > RUNS)?;
    new_log.copy_from_slice(&encode_log(&runs));
    Ok(())
}

/// The piece's range with its age. A sum past 2^64 is past EOF like any other.
fn piece_run(piece: Piece<u64>, image_length: u64) -> Result<Run, Refusal> {
    let Piece { first, bytes: length, age } = piece;
    let end = u128::from(first) + u128::from(length);
    let past = end > u128::from(image_length) || end > u128::from(EOF) + 1;
    refuse(refusal::PIECE, length == 0 || past)?;
    let Age { number, pass } = age;
    refuse(refusal::NUMBER, number == 0 || number > HIGHEST || pass == 0 || pass > HIGHEST_PASS)?;
    Ok(Run { first, last: first + (length - 1), age })
}

/// The runs of a map, unless it is of another length or not sound.
pub fn decode_map(bytes: &[u8]) -> Option<Vec<Run>> {
    if bytes.len() != MAP_BYTES {
        return None;
    }
    let (runs, after) = array(bytes, RUN_BYTES, RUNS, run)?;
    (sound_map(&runs) && zero(after)).then_some(runs)
}

/// The entries of a log, unless it is of another length or not sound.
/// Bytes after the last entry may be anything.
pub fn decode_log(bytes: &[u8]) -> Option<Vec<Run>> {
    if bytes.len() != LOG_BYTES {
        return None;
    }
    let (entries, _) = array(bytes, RUN_BYTES, ENTRIES, run)?;
    sound_log(&entries).then_some(entries)
}

/// The bytes of a map, with zero bytes after its runs.
pub fn encode_map(runs: &[Run]) -> Vec<u8> {
    encode(MAP_BYTES, runs)
}

/// The bytes of a log, with zero bytes after its entries.
pub fn encode_log(entries: &[Run]) -> Vec<u8> {
    encode(LOG_BYTES, entries)
}

fn encode(length: usize, runs: &[Run]) -> Vec<u8> {
    let mut bytes = vec![0; length];
    put_array(&mut bytes, RUN_BYTES, runs, put_run);
    bytes
}

fn run(bytes: &[u8]) -> Option<Run> {
    let age = Age::new(unsigned(bytes, 16), unsigned(bytes, 20));
    Some(Run { first: hyper(bytes, 0), last: hyper(bytes, 8), age })
}

fn put_run(bytes: &mut [u8], run: &Run) {
    put_hyper(bytes, 0, run.first);
    put_hyper(bytes, 8, run.last);
    put_unsigned(bytes, 16, run.age.number);
    put_unsigned(bytes, 20, run.age.pass);
}

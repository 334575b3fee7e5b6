//! Versions that judge ages otherwise than by number first and pass second: the scenes find each of them
//! out.

use crate::stripe_scenes::{cuts, edges, pieces, restarts};
use gilboreth_host::beside::finds_out;
use gilboreth_host::calls::{Calls, LIBRARY};
use gilboreth_host::model::runs::{ages_over, Age, Run};
use gilboreth_host::model::stripe::{decode_log, decode_map, encode_log, encode_map, Piece};
use std::cmp::max_by_key;

/// How ages are judged: as the rules say, where a version doesn't say otherwise.
trait Judge {
    /// What a byte's age becomes by an entry over it.
    fn raised(under: Age, entry: Age) -> Age {
        under.max(entry)
    }
    /// Whether touching stretches are one run.
    fn joined(left: Age, right: Age) -> bool {
        left == right
    }
    /// Whether a byte's age refuses the write of a piece with 18.
    fn smaller(under: Age, piece: Age) -> bool {
        under < piece
    }
    /// Whether a write stores its byte.
    fn stored(under: Age, piece: Age) -> bool {
        under == piece
    }
}

/// The map of entries that come one after the other, byte by byte.
fn map_by<J: Judge>(entries: &[Run]) -> Vec<Run> {
    let first = entries.iter().map(|entry| entry.first).min().unwrap_or(0);
    let end = entries.iter().map(|entry| entry.last + 1).max().unwrap_or(0);
    let mut ages = vec![Age::NONE; (end - first) as usize];
    for entry in entries {
        for age in &mut ages[(entry.first - first) as usize..=(entry.last - first) as usize] {
            *age = J::raised(*age, entry.age);
        }
    }
    let mut runs: Vec<Run> = Vec::new();
    for (byte, age) in (first..).zip(ages).filter(|&(_, age)| age != Age::NONE) {
        match runs.last_mut() {
            Some(run) if run.last + 1 == byte && J::joined(run.age, age) => run.last = byte,
            _ => runs.push(Run { first: byte, last: byte, age }),
        }
    }
    runs
}

fn note<J: Judge>(map: &mut [u8], log: &mut [u8], piece: Piece<u64>, image_length: u64) -> u64 {
    let old_map = map.to_vec();
    let answer = (LIBRARY.note)(map, log, piece, image_length);
    if answer == 0 {
        let Piece { first, bytes, age } = piece;
        let mut entries = decode_map(&old_map).unwrap();
        entries.push(Run { first, last: first + bytes - 1, age });
        map.copy_from_slice(&encode_map(&map_by::<J>(&entries)));
    }
    answer
}

fn write<J: Judge>(map: &[u8], image: &mut [u8], piece: Piece<&[u8]>) -> u64 {
    let answer = (LIBRARY.write)(map, &mut image.to_vec(), piece);
    if answer != 0 && answer != 18 {
        return answer;
    }
    let ages = ages_over(&decode_map(map).unwrap(), piece.first, piece.bytes.len());
    if ages.iter().any(|&under| J::smaller(under, piece.age)) {
        return 18;
    }
    let places = image[piece.first as usize..].iter_mut().zip(piece.bytes).zip(ages);
    for ((place, &byte), _) in places.filter(|&(_, under)| J::stored(under, piece.age)) {
        *place = byte;
    }
    0
}

fn restart<J: Judge>(map: &mut [u8], log: &[u8]) -> u64 {
    let answer = (LIBRARY.restart)(map, log);
    if answer == 0 {
        map.copy_from_slice(&encode_map(&map_by::<J>(&decode_log(log).unwrap())));
    }
    answer
}

fn compact<J: Judge>(old_log: &[u8], new_log: &mut [u8]) -> u64 {
    let answer = (LIBRARY.compact)(old_log, new_log);
    if answer == 0 {
        new_log.copy_from_slice(&encode_log(&map_by::<J>(&decode_log(old_log).unwrap())));
    }
    answer
}

/// Whether the scenes find out a note, a restart and a compaction that judge so, each by itself.
fn maps_found_out<J: Judge>() -> [bool; 4] {
    let noted = Calls { note: note::<J>, ..LIBRARY };
    let restarted = Calls { restart: restart::<J>, ..LIBRARY };
    let compacted = Calls { compact: compact::<J>, ..LIBRARY };
    [
        finds_out(noted, |wrong| pieces::small(wrong, 0..40)),
        finds_out(noted, |wrong| cuts::crowded(wrong, 0..40)),
        finds_out(restarted, |wrong| restarts::crowded(wrong, 0..40)),
        finds_out(compacted, |wrong| restarts::crowded(wrong, 0..40)),
    ]
}

fn writes_found_out<J: Judge>() -> [bool; 3] {
    let written = Calls { write: write::<J>, ..LIBRARY };
    [
        finds_out(written, |wrong| pieces::small(wrong, 0..40)),
        finds_out(written, |wrong| cuts::crowded(wrong, 0..40)),
        finds_out(written, edges::pairs),
    ]
}

struct AsTheRulesSay;
impl Judge for AsTheRulesSay {}

struct PassFirst;
impl Judge for PassFirst {
    fn raised(under: Age, entry: Age) -> Age {
        max_by_key(under, entry, |age| (age.pass, age.number))
    }
    fn smaller(under: Age, piece: Age) -> bool {
        (under.pass, under.number) < (piece.pass, piece.number)
    }
}

/// A later pass of the same number raises nothing.
struct NumberAlone;
impl Judge for NumberAlone {
    fn raised(under: Age, entry: Age) -> Age {
        max_by_key(entry, under, |age| age.number)
    }
}

/// Of two passes of one number the one that comes last is taken.
struct LastPass;
impl Judge for LastPass {
    fn raised(under: Age, entry: Age) -> Age {
        max_by_key(under, entry, |age| age.number)
    }
}

/// The greater number and the greater pass, of whichever they are.
struct RaisedApart;
impl Judge for RaisedApart {
    fn raised(under: Age, entry: Age) -> Age {
        Age::new(under.number.max(entry.number), under.pass.max(entry.pass))
    }
}

/// Whatever the pass was, it becomes 1.
struct PassLost;
impl Judge for PassLost {
    fn raised(under: Age, entry: Age) -> Age {
        Age { pass: 1, ..under.max(entry) }
    }
}

/// Numbers and passes as signed ones.
struct Signed;
impl Judge for Signed {
    fn raised(under: Age, entry: Age) -> Age {
        if Signed::smaller(under, entry) {
            entry
        } else {
            under
        }
    }
    fn smaller(under: Age, piece: Age) -> bool {
        under == Age::NONE || signed(under) < signed(piece)
    }
}

fn signed(age: Age) -> (i32, i32) {
    (age.number as i32, age.pass as i32)
}

/// Both in one number, with too little room for the pass.
struct TooNarrow;
impl Judge for TooNarrow {
    fn raised(under: Age, entry: Age) -> Age {
        max_by_key(under, entry, |&age| narrow(age))
    }
    fn smaller(under: Age, piece: Age) -> bool {
        narrow(under) < narrow(piece)
    }
}

fn narrow(age: Age) -> u64 {
    (age.number << 16) + age.pass
}

/// Touching runs of one number become one, with the pass of the first.
struct JoinedAcross;
impl Judge for JoinedAcross {
    fn joined(left: Age, right: Age) -> bool {
        left.number == right.number
    }
}

/// Touching runs of one pass become one, with the number of the first.
struct JoinedByPass;
impl Judge for JoinedByPass {
    fn joined(left: Age, right: Age) -> bool {
        left.pass == right.pass
    }
}

struct NeverJoined;
impl Judge for NeverJoined {
    fn joined(_: Age, _: Age) -> bool {
        false
    }
}

/// A resend of the first pass beats the second.
struct StoredByNumber;
impl Judge for StoredByNumber {
    fn stored(under: Age, piece: Age) -> bool {
        under.number == piece.number
    }
}

struct StoredByPass;
impl Judge for StoredByPass {
    fn stored(under: Age, piece: Age) -> bool {
        under.pass == piece.pass
    }
}

/// A later pass that is not noted is accepted.
struct SmallerByNumber;
impl Judge for SmallerByNumber {
    fn smaller(under: Age, piece: Age) -> bool {
        under.number < piece.number
    }
}

/// An older piece of a later pass is refused.
struct SmallerInEither;
impl Judge for SmallerInEither {
    fn smaller(under: Age, piece: Age) -> bool {
        under.number < piece.number || under.pass < piece.pass
    }
}

#[test]
fn ages_judged_otherwise() {
    assert_eq!(maps_found_out::<AsTheRulesSay>(), [false; 4]);
    for (name, found) in [
        ("pass before number", maps_found_out::<PassFirst>()),
        ("number alone", maps_found_out::<NumberAlone>()),
        ("the last pass by arrival", maps_found_out::<LastPass>()),
        ("number and pass apart", maps_found_out::<RaisedApart>()),
        ("every pass 1", maps_found_out::<PassLost>()),
        ("signed numbers", maps_found_out::<Signed>()),
        ("too narrow a number", maps_found_out::<TooNarrow>()),
        ("runs joined across passes", maps_found_out::<JoinedAcross>()),
        ("runs joined across numbers", maps_found_out::<JoinedByPass>()),
        ("runs never joined", maps_found_out::<NeverJoined>()),
    ] {
        assert_eq!(found, [true; 4], "{name}");
    }
    assert_eq!(writes_found_out::<AsTheRulesSay>(), [false; 3]);
    for (name, found) in [
        ("18 by the pass first", writes_found_out::<PassFirst>()),
        ("18 by signed numbers", writes_found_out::<Signed>()),
        ("18 by too narrow a number", writes_found_out::<TooNarrow>()),
        ("18 by the number alone", writes_found_out::<SmallerByNumber>()),
        ("18 where the pass is smaller", writes_found_out::<SmallerInEither>()),
        ("stored where the number is equal", writes_found_out::<StoredByNumber>()),
        ("stored where the pass is equal", writes_found_out::<StoredByPass>()),
    ] {
        assert_eq!(found, [true; 3], "{name}");
    }
}

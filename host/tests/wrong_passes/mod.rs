//! Versions that take a pass otherwise than the rules say, of a piece or in the bytes: the scenes find each
//! of them out.

use crate::stripe_scenes::{cuts, damage, edges, limits, pieces};
use gilboreth_host::beside::{finds_out, Beside};
use gilboreth_host::calls::{Calls, Compact, Note, Restart, Write, LIBRARY};
use gilboreth_host::model::runs::{Age, Run};
use gilboreth_host::model::stripe::{
    decode_log, decode_map, run_at, Piece, LOG_BYTES, MAP_BYTES, RUN_BYTES,
};
use gilboreth_host::model::HIGHEST_PASS;

type Scene = fn(&mut Beside);
const DRAWN: Scene = |wrong| pieces::small(wrong, 0..40);
const CUT: Scene = |wrong| cuts::crowded(wrong, 0..40);

/// Each of the scenes finds these calls out.
fn found_out(name: &str, scenes: &[Scene], calls: Calls) {
    for (place, scene) in scenes.iter().enumerate() {
        assert!(finds_out(calls, scene), "{name}: not by scene {place}");
    }
}

/// The piece with another pass.
fn with<B>(piece: Piece<B>, pass: u64) -> Piece<B> {
    Piece { age: Age { pass, ..piece.age }, ..piece }
}

#[test]
fn notes() {
    let wrong: [(&str, &[Scene], Note); 6] = [
        ("the pass is forgotten", &[DRAWN, CUT, edges::pairs], |map, log, piece, image_length| {
            (LIBRARY.note)(map, log, with(piece, 1), image_length)
        }),
        (
            "a pass of 0 is taken",
            &[DRAWN, edges::notes, edges::pairs],
            |map, log, piece, image_length| {
                (LIBRARY.note)(map, log, with(piece, piece.age.pass.max(1)), image_length)
            },
        ),
        (
            "a pass is cut to 32 bits",
            &[DRAWN, edges::notes, edges::pairs, limits::notes],
            |map, log, piece, image_length| {
                (LIBRARY.note)(map, log, with(piece, piece.age.pass & HIGHEST_PASS), image_length)
            },
        ),
        (
            "the highest pass is refused",
            &[edges::notes, edges::pairs],
            |map, log, piece, image_length| match piece.age.pass {
                HIGHEST_PASS => (LIBRARY.note)(map, log, with(piece, 0), image_length),
                _ => (LIBRARY.note)(map, log, piece, image_length),
            },
        ),
        ("the pass is judged last", &[limits::notes], |map, log, piece, image_length| {
            let (mut new_map, mut new_log) = (map.to_vec(), log.to_vec());
            match (LIBRARY.note)(&mut new_map, &mut new_log, with(piece, 1), image_length) {
                0 => (LIBRARY.note)(map, log, piece, image_length),
                refused => refused,
            }
        }),
        (
            "the entry has its pass before its number",
            &[DRAWN, CUT, edges::pairs],
            |map, log, piece, image_length| {
                let answer = (LIBRARY.note)(map, log, piece, image_length);
                if answer == 0 {
                    let end = run_at(decode_log(log).unwrap().len());
                    log[end - 8..end].rotate_left(4);
                }
                answer
            },
        ),
    ];
    for (name, scenes, note) in wrong {
        found_out(name, scenes, Calls { note, ..LIBRARY });
    }
}

#[test]
fn writes() {
    let wrong: [(&str, &[Scene], Write); 4] = [
        ("the pass is forgotten", &[DRAWN, CUT, edges::pairs], |map, image, piece| {
            (LIBRARY.write)(map, image, with(piece, 1))
        }),
        ("a pass of 0 is taken", &[DRAWN, edges::writes, edges::pairs], |map, image, piece| {
            (LIBRARY.write)(map, image, with(piece, piece.age.pass.max(1)))
        }),
        ("a pass is cut to 32 bits", &[DRAWN, edges::writes, edges::pairs], |map, image, piece| {
            (LIBRARY.write)(map, image, with(piece, piece.age.pass & HIGHEST_PASS))
        }),
        ("the pass is judged last", &[DRAWN, edges::writes, edges::pairs], |map, image, piece| {
            match (LIBRARY.write)(map, &mut image.to_vec(), with(piece, 1)) {
                0 => (LIBRARY.write)(map, image, piece),
                18 if (1..=HIGHEST_PASS).contains(&piece.age.pass) => {
                    (LIBRARY.write)(map, image, piece)
                }
                refused => refused,
            }
        }),
    ];
    for (name, scenes, write) in wrong {
        found_out(name, scenes, Calls { write, ..LIBRARY });
    }
}

/// A map or a log with pass 1 in the place of pass 0.
fn mended(bytes: &[u8]) -> Vec<u8> {
    let mut bytes = bytes.to_vec();
    for run in bytes[4..].chunks_exact_mut(RUN_BYTES).filter(|run| run[16..20] != [0; 4]) {
        if run[20..] == [0; 4] {
            run[23] = 1;
        }
    }
    bytes
}

/// Runs of pass 0 in a map or a log that is lent.
#[test]
fn runs_of_pass_0() {
    let scenes: [Scene; 2] = [damage::each_run, edges::fields];
    let notes: [Note; 2] = [
        |map, log, piece, image_length| {
            let mut taken = mended(map);
            let answer = (LIBRARY.note)(&mut taken, log, piece, image_length);
            if answer == 0 {
                map.copy_from_slice(&taken);
            }
            answer
        },
        |map, log, piece, image_length| {
            let mut taken = mended(log);
            let answer = (LIBRARY.note)(map, &mut taken, piece, image_length);
            if answer == 0 {
                log.copy_from_slice(&taken);
            }
            answer
        },
    ];
    let write: Write = |map, image, piece| (LIBRARY.write)(&mended(map), image, piece);
    let restart: Restart = |map, log| (LIBRARY.restart)(map, &mended(log));
    let compact: Compact = |old_log, new_log| (LIBRARY.compact)(&mended(old_log), new_log);
    found_out("a map of a note", &scenes, Calls { note: notes[0], ..LIBRARY });
    found_out("a log of a note", &scenes, Calls { note: notes[1], ..LIBRARY });
    found_out("a map of a write", &scenes, Calls { write, ..LIBRARY });
    found_out("a log of a restart", &scenes, Calls { restart, ..LIBRARY });
    found_out("a log of a compaction", &scenes, Calls { compact, ..LIBRARY });
}

/// Whether the map has touching runs of one number, which are sound.
fn touching(map: &[u8]) -> bool {
    let touch =
        |left: Run, right: Run| left.last + 1 == right.first && left.age.number == right.age.number;
    let runs = decode_map(map).unwrap_or_default();
    runs.windows(2).any(|pair| touch(pair[0], pair[1]))
}

#[test]
fn touching_runs_of_one_number() {
    let note: Note = |map, log, piece, image_length| match touching(map) {
        true => 12,
        false => (LIBRARY.note)(map, log, piece, image_length),
    };
    let write: Write = |map, image, piece| match touching(map) {
        true => 12,
        false => (LIBRARY.write)(map, image, piece),
    };
    for calls in [Calls { note, ..LIBRARY }, Calls { write, ..LIBRARY }] {
        found_out("they are refused", &[DRAWN, CUT, edges::fields], calls);
    }
}

/// A buffer that is taken for one of another length.
fn lengthened(bytes: &[u8], length: usize) -> Vec<u8> {
    let mut bytes = bytes.to_vec();
    bytes.resize(length, 0);
    bytes
}

#[test]
fn lengths_without_passes() {
    let write: Write = |map, image, piece| match map.len() {
        20_484 => (LIBRARY.write)(&lengthened(map, MAP_BYTES), image, piece),
        _ => (LIBRARY.write)(map, image, piece),
    };
    let restart: Restart = |map, log| match log.len() {
        40_964 => (LIBRARY.restart)(map, &lengthened(log, LOG_BYTES)),
        _ => (LIBRARY.restart)(map, log),
    };
    let compact: Compact = |old_log, new_log| match new_log.len() {
        40_964 => 0,
        _ => (LIBRARY.compact)(old_log, new_log),
    };
    found_out("a map of a write", &[edges::lengths], Calls { write, ..LIBRARY });
    found_out("a log of a restart", &[edges::lengths], Calls { restart, ..LIBRARY });
    found_out("a compaction's second buffer", &[edges::lengths], Calls { compact, ..LIBRARY });
}

/// The library itself is found out by none of these scenes.
#[test]
fn as_the_rules_say() {
    let edges: [Scene; 5] =
        [edges::notes, edges::writes, edges::pairs, edges::fields, edges::lengths];
    for scene in edges.into_iter().chain([DRAWN, CUT, limits::notes, damage::each_run]) {
        assert!(!finds_out(LIBRARY, scene));
    }
}

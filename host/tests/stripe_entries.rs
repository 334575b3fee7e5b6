//! The library's note, write, restart and compaction beside the model, answer by answer and byte by byte.

mod stripe_scenes;
mod wrong_ages;
mod wrong_passes;

use gilboreth_host::beside::{finds_out, Beside};
use gilboreth_host::calls::{Calls, Compact, LIBRARY};
use gilboreth_host::model::runs::map_of;
use gilboreth_host::model::stripe::{decode_log, encode_log, run_at, LOG_BYTES, MAP_BYTES};
use stripe_scenes::{compactions, cuts, damage, edges, limits, pieces, restarts};

#[test]
fn small_pieces() {
    let mut library = Beside::new(LIBRARY);
    pieces::small(&mut library, 0..2_000);
    library.reached(120_000, &[0, 14, 15, 18]);
}

#[test]
fn large_pieces() {
    let mut library = Beside::new(LIBRARY);
    pieces::large(&mut library, 0..50);
    library.reached(3_000, &[0, 14, 15, 18]);
}

#[test]
fn cuts() {
    let mut library = Beside::new(LIBRARY);
    cuts::crowded(&mut library, 0..1_000);
    library.reached(70_000, &[0, 18]);
}

#[test]
fn cuts_and_compactions() {
    let mut library = Beside::new(LIBRARY);
    cuts::compacted(&mut library, 0..600, false);
    library.reached(58_000, &[0, 18]);
}

#[test]
fn cuts_at_the_limit_of_runs() {
    let mut library = Beside::new(LIBRARY);
    cuts::at_the_limit_of_runs(&mut library, 0..1);
    library.reached(2_000, &[0, 16, 18]);
}

#[test]
fn cuts_at_the_limit_of_entries() {
    let mut library = Beside::new(LIBRARY);
    cuts::at_the_limit_of_entries(&mut library, 0..1);
    library.reached(2_000, &[0, 17]);
}

#[test]
fn cuts_past_the_limit_of_entries() {
    let mut library = Beside::new(LIBRARY);
    cuts::past_the_limit_of_entries(&mut library, 0..1);
    library.reached(2_200, &[0]);
}

#[test]
fn notes_at_the_limits() {
    let mut library = Beside::new(LIBRARY);
    limits::notes(&mut library);
    library.reached(324, &[0, 15, 16, 17]);
}

#[test]
fn drawn_notes_at_the_limits() {
    let mut library = Beside::new(LIBRARY);
    limits::drawn_notes(&mut library, 0..60);
    library.reached(720, &[0, 16, 17, 18]);
}

#[test]
fn logs_at_the_limits() {
    let mut library = Beside::new(LIBRARY);
    limits::restarts(&mut library, 0..4);
    library.reached(144, &[0, 16]);
}

#[test]
fn full_logs() {
    let mut library = Beside::new(LIBRARY);
    limits::full_logs(&mut library, 0..6);
    library.reached(220, &[0, 16]);
}

#[test]
fn logs_of_every_kind() {
    let mut library = Beside::new(LIBRARY);
    restarts::of_every_kind(&mut library);
    library.reached(672, &[0]);
}

#[test]
fn crowded_logs() {
    let mut library = Beside::new(LIBRARY);
    restarts::crowded(&mut library, 0..2_000);
    library.reached(8_000, &[0]);
}

#[test]
fn compactions_over_any_content() {
    let mut library = Beside::new(LIBRARY);
    compactions::over_any_content(&mut library, 0..60);
    library.reached(360, &[0, 16]);
}

#[test]
fn compactions_at_the_limit_of_runs() {
    let mut library = Beside::new(LIBRARY);
    compactions::at_the_limit_of_runs(&mut library);
    library.reached(24, &[0, 16]);
}

#[test]
fn notes_after_compactions() {
    let mut library = Beside::new(LIBRARY);
    compactions::notes_after(&mut library);
    library.reached(4_104, &[0, 17]);
}

#[test]
fn numbers_of_notes() {
    let mut library = Beside::new(LIBRARY);
    edges::notes(&mut library);
    library.reached(58_080, &[0, 14, 15]);
}

#[test]
fn numbers_of_writes() {
    let mut library = Beside::new(LIBRARY);
    edges::writes(&mut library);
    library.reached(15_840, &[0, 14, 15, 18]);
}

#[test]
fn numbers_and_passes() {
    let mut library = Beside::new(LIBRARY);
    edges::pairs(&mut library);
    library.reached(51_435, &[0, 15, 18]);
}

#[test]
fn fields() {
    let mut library = Beside::new(LIBRARY);
    edges::fields(&mut library);
    library.reached(6_144, &[0, 12, 13]);
}

#[test]
fn counts() {
    let mut library = Beside::new(LIBRARY);
    edges::counts(&mut library);
    library.reached(144, &[0, 12, 13, 16, 17, 18]);
}

#[test]
fn lengths() {
    let mut library = Beside::new(LIBRARY);
    edges::lengths(&mut library);
    library.reached(1_800, &[0, 12, 13, 14, 18]);
}

#[test]
fn flipped_bits() {
    let mut library = Beside::new(LIBRARY);
    damage::flips(&mut library, 0..500);
    library.reached(32_000, &[0, 12, 13, 18]);
}

#[test]
fn each_bit() {
    let mut library = Beside::new(LIBRARY);
    damage::each_bit(&mut library);
    library.reached(6_000, &[0, 12, 13, 18]);
}

#[test]
fn each_run() {
    let mut library = Beside::new(LIBRARY);
    damage::each_run(&mut library);
    library.reached(16_384, &[12, 13]);
}

#[test]
fn each_byte_after_the_runs() {
    let mut library = Beside::new(LIBRARY);
    damage::each_byte_after(&mut library);
    library.reached(48_000, &[12]);
}

/// Versions that answer as the library does and leave something else: the scenes find each of them out.
#[test]
fn wrong_versions() {
    let note: [(&str, Calls); 4] = [
        ("a note that does nothing", Calls { note: |_, _, _, _| 0, ..LIBRARY }),
        (
            "a note that leaves the map",
            Calls {
                note: |map, log, piece, image_length| {
                    (LIBRARY.note)(&mut map.to_vec(), log, piece, image_length)
                },
                ..LIBRARY
            },
        ),
        (
            "a note that leaves the log",
            Calls {
                note: |map, log, piece, image_length| {
                    (LIBRARY.note)(map, &mut log.to_vec(), piece, image_length)
                },
                ..LIBRARY
            },
        ),
        (
            "a note that clears the byte after its entry",
            Calls {
                note: |map, log, piece, image_length| {
                    let answer = (LIBRARY.note)(map, log, piece, image_length);
                    log[run_at(log[3] as usize)] = 0;
                    answer
                },
                ..LIBRARY
            },
        ),
    ];
    let write: [(&str, Calls); 3] = [
        ("a write that does nothing", Calls { write: |_, _, _| 0, ..LIBRARY }),
        (
            "a write by arrival",
            Calls {
                write: |map, image, piece| {
                    let answer = (LIBRARY.write)(map, image, piece);
                    if answer == 0 {
                        image[piece.first as usize..][..piece.bytes.len()]
                            .copy_from_slice(piece.bytes);
                    }
                    answer
                },
                ..LIBRARY
            },
        ),
        (
            "a write that refuses an equal age",
            Calls {
                write: |map, image, piece| {
                    let mut stored = image.to_vec();
                    let answer = (LIBRARY.write)(map, &mut stored, piece);
                    if answer == 0 && stored != image {
                        return 18;
                    }
                    answer
                },
                ..LIBRARY
            },
        ),
    ];
    let restart = Calls {
        restart: |map, log| {
            let answer = (LIBRARY.restart)(map, log);
            map.fill(0);
            answer
        },
        ..LIBRARY
    };
    let refused = Calls {
        note: |map, log, piece, image_length| {
            let answer = (LIBRARY.note)(map, log, piece, image_length);
            let full = map[..4] == 1_024_u32.to_be_bytes();
            if full && answer == 0 {
                16
            } else {
                answer
            }
        },
        ..LIBRARY
    };
    for (name, calls) in note.into_iter().chain(write) {
        assert!(finds_out(calls, |wrong| pieces::small(wrong, 0..20)), "{name}");
        assert!(finds_out(calls, |wrong| cuts::crowded(wrong, 0..20)), "{name}");
    }
    assert!(finds_out(restart, |wrong| pieces::small(wrong, 0..20)), "an empty map");
    assert!(finds_out(restart, restarts::of_every_kind), "an empty map");
    assert!(finds_out(refused, limits::notes), "16 at 1,024 runs");
    assert!(!finds_out(LIBRARY, |right| pieces::small(right, 0..20)));
}

/// Compactions that leave something else, or answer other than the rules say: a scene finds each of them
/// out.
#[test]
fn wrong_compactions() {
    type Scene = fn(&mut Beside);
    let any_content: Scene = |wrong| compactions::over_any_content(wrong, 0..20);
    let limit: Scene = compactions::at_the_limit_of_runs;
    let wrong: [(&str, Scene, Compact); 13] = [
        ("it does nothing", any_content, |_, _| 0),
        ("it refuses every log", any_content, |_, _| 13),
        ("it copies the old log", any_content, |old_log, new_log| {
            changed(old_log, new_log, |new_log| new_log.copy_from_slice(old_log))
        }),
        ("it forgets the last run", any_content, |old_log, new_log| {
            changed(old_log, new_log, |new_log| {
                let mut runs = decode_log(new_log).unwrap();
                runs.pop();
                new_log.copy_from_slice(&encode_log(&runs));
            })
        }),
        ("its runs fall", any_content, |old_log, new_log| {
            changed(old_log, new_log, |new_log| {
                let mut runs = decode_log(new_log).unwrap();
                runs.reverse();
                new_log.copy_from_slice(&encode_log(&runs));
            })
        }),
        ("it takes a byte by arrival", any_content, |old_log, new_log| {
            changed(old_log, new_log, |new_log| {
                let mut entries = decode_log(old_log).unwrap();
                (1..).zip(&mut entries).for_each(|(place, entry)| entry.age.number = place);
                (LIBRARY.compact)(&encode_log(&entries), new_log);
            })
        }),
        ("it leaves what stood after the entries", any_content, |old_log, new_log| {
            let content = new_log.to_vec();
            changed(old_log, new_log, |new_log| {
                let end = run_at(decode_log(new_log).unwrap().len());
                new_log[end..].copy_from_slice(&content[end..]);
            })
        }),
        ("its zeros end where a map would", any_content, |old_log, new_log| {
            let content = new_log.to_vec();
            changed(old_log, new_log, |new_log| {
                new_log[MAP_BYTES..].copy_from_slice(&content[MAP_BYTES..]);
            })
        }),
        ("it judges what stood in the second buffer", any_content, |old_log, new_log| {
            match decode_log(new_log) {
                None => 13,
                Some(_) => (LIBRARY.compact)(old_log, new_log),
            }
        }),
        ("it judges 16 after a store", limit, |old_log, new_log| {
            let answer = (LIBRARY.compact)(old_log, new_log);
            if answer == 16 {
                new_log[..4].fill(0);
            }
            answer
        }),
        ("it refuses 1,024 runs", limit, |old_log, new_log| {
            let content = new_log.to_vec();
            let answer = (LIBRARY.compact)(old_log, new_log);
            if new_log[..4] == 1_024_u32.to_be_bytes() {
                new_log.copy_from_slice(&content);
                return 16;
            }
            answer
        }),
        ("it takes as many runs as a log has room for", limit, |old_log, new_log| {
            let answer = (LIBRARY.compact)(old_log, new_log);
            if answer == 16 {
                new_log.copy_from_slice(&encode_log(&map_of(&decode_log(old_log).unwrap())));
                return 0;
            }
            answer
        }),
        ("it takes a longer second buffer", edges::lengths, |old_log, new_log| {
            let length = new_log.len().min(LOG_BYTES);
            (LIBRARY.compact)(old_log, &mut new_log[..length])
        }),
    ];
    for (name, scene, compact) in wrong {
        assert!(finds_out(Calls { compact, ..LIBRARY }, scene), "{name}");
    }
    for scene in [any_content, limit, edges::lengths] {
        assert!(!finds_out(LIBRARY, scene));
    }
}

/// The library's compaction, and what is then made of an accepted one.
fn changed(old_log: &[u8], new_log: &mut [u8], change: impl FnOnce(&mut [u8])) -> u64 {
    let answer = (LIBRARY.compact)(old_log, new_log);
    if answer == 0 {
        change(new_log);
    }
    answer
}

/// A daemon that takes a note between a compaction and the turn loses it.
#[test]
fn a_note_before_the_turn() {
    assert!(finds_out(LIBRARY, |heedless| cuts::compacted(heedless, 0..20, true)));
    assert!(!finds_out(LIBRARY, |right| cuts::compacted(right, 0..20, false)));
}

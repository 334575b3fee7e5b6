//! Cases that the settled examples miss, each worked out by hand from the rules. They are run by the
//! library and by the model.

mod both;
mod lists;
mod passes;
mod piped;
mod runs;
mod transcript;

use both::{compact, note, restart, write};
use gilboreth_host::model::locks::encode;
use gilboreth_host::model::modes::{Mode, State};
use gilboreth_host::model::stripe::{run_at, Piece, LOG_BYTES, MAP_BYTES};
use gilboreth_host::model::table::{Record, Table};
use runs::runs;
use transcript::{play, play_on};

/// A record on [0,9] of stripe 0.
fn record(handle: u64, mode: Mode, state: State, number: u64) -> Record {
    Record { handle, client: 0, stripe: 0, mode, state, number, first: 0, last: 9, marked: false }
}

/// A table with one lock on [0,9], with number 1 unless it is PR.
fn holding(mode: Mode, state: State) -> Vec<u8> {
    let number = u64::from(mode != Mode::PR);
    let mut table = Table { issued: 1, ..Table::default() };
    table.numbers[0] = number;
    table.records.push(record(1, mode, state, number));
    encode(&table)
}

/// Handle 2 stops before the waiting handle 3, which its asked range doesn't touch.
#[test]
fn widening_stops_before_a_later_waiting_request() {
    play(
        "
        R,0,0,4,0,0    =,0,1  G,1,0,0,4,1,1,0,EOF
        R,1,0,2,0,9    =,0,2  V,1,0,0,4,2,1,0,EOF
        R,2,0,2,20,29  =,0,3
        F,0,1          =,0,1  G,2,1,0,2,1,2,0,19  G,3,2,0,2,1,3,20,EOF
        ",
    );
}

/// Handle 3 stops at byte 20 for the waiting handle 2, not first at byte 30 for the held lock.
#[test]
fn widening_stops_before_an_earlier_waiting_request() {
    play(
        "
        R,0,0,4,30,30  =,0,1  G,1,0,0,4,1,1,30,EOF
        R,1,0,2,20,39  =,0,2  V,1,0,0,4,2,1,30,EOF
        R,2,0,2,0,5    =,0,3  G,3,2,0,2,1,2,0,19
        ",
    );
}

/// Two waiting PR don't conflict, so neither stops the other.
#[test]
fn widening_of_pr_passes_a_waiting_pr() {
    play(
        "
        R,0,0,4,0,0    =,0,1  G,1,0,0,4,1,1,0,EOF
        R,1,0,1,0,5    =,0,2  V,1,0,0,4,2,1,0,EOF
        R,2,0,1,20,29  =,0,3
        F,0,1          =,0,1  G,2,1,0,1,1,0,0,EOF  G,3,2,0,1,1,0,20,EOF
        ",
    );
}

/// A canceling NBW from byte 20 on stops PR and PW, but neither NBW nor BW.
#[test]
fn widening_and_a_canceling_nbw() {
    play(
        "
        R,0,0,2,20,29  =,0,1  G,1,0,0,2,1,1,20,EOF
        R,1,0,2,20,29  =,0,2  V,1,0,0,2,2,1,20,EOF
        A,0,1          =,0,1  G,2,1,0,2,1,2,20,EOF
        F,1,2          =,0,2
        R,2,0,3,0,5    =,0,3  G,3,2,0,3,1,3,0,EOF
        F,2,3          =,0,3
        R,2,0,2,0,5    =,0,4  G,4,2,0,2,1,4,0,EOF
        F,2,4          =,0,4
        R,2,0,1,0,5    =,0,5  G,5,2,0,1,1,0,0,19
        F,2,5          =,0,5
        R,2,0,4,0,5    =,0,6  G,6,2,0,4,1,5,0,19
        ",
    );
}

/// Handle 3 touches no held lock, and waits for the waiting handle 2 alone.
#[test]
fn an_earlier_waiting_request_is_an_obstacle() {
    play(
        "
        R,0,0,4,10,19  =,0,1  G,1,0,0,4,1,1,10,EOF
        R,1,0,2,0,19   =,0,2  V,1,0,0,4,2,1,10,EOF
        R,2,0,1,0,5    =,0,3
        F,0,1          =,0,1  G,2,1,0,2,3,2,0,19
        F,1,2          =,0,2  G,3,2,0,1,1,0,0,EOF
        ",
    );
}

/// Handle 3 goes on waiting for handle 2 where the later handle 4 conflicts with it too: a request
/// that hurries another on doesn't let it pass an earlier one.
#[test]
fn a_later_request_lets_nobody_pass_an_earlier_one() {
    play(
        "
        R,0,0,4,10,19  =,0,1  G,1,0,0,4,1,1,10,EOF
        R,1,0,2,0,19   =,0,2  V,1,0,0,4,2,1,10,EOF
        R,2,0,1,0,5    =,0,3
        R,3,0,4,0,5    =,0,4
        F,0,1          =,0,1  G,2,1,0,2,3,2,0,19
        F,1,2          =,0,2  G,3,2,0,1,3,0,0,5
        F,2,3          =,0,3  G,4,3,0,4,1,3,0,EOF
        ",
    );
}

/// The withdrawn handle 2 was the last obstacle of handle 3, and takes no number.
#[test]
fn release_withdraws_a_waiting_request() {
    play(
        "
        R,0,0,4,10,19  =,0,1  G,1,0,0,4,1,1,10,EOF
        R,1,0,2,0,19   =,0,2  V,1,0,0,4,2,1,10,EOF
        R,2,0,2,0,5    =,0,3
        F,1,2          =,0,2  G,3,2,0,2,1,2,0,9
        F,1,2          =,9,0
        ",
    );
}

/// A PR that a later PW wants comes canceling, and can only be released.
#[test]
fn early_revocation_of_pr() {
    play(
        "
        R,0,0,4,0,0  =,0,1   G,1,0,0,4,1,1,0,EOF
        R,1,0,1,0,9  =,0,2   V,1,0,0,4,2,1,0,EOF
        R,2,0,4,5,9  =,0,3
        F,0,1        =,0,1   G,2,1,0,1,3,0,0,9
        A,1,2        =,11,0
        D,1,2        =,11,0
        F,1,2        =,0,2   G,3,2,0,4,1,2,5,EOF
        ",
    );
}

/// Handles count over all stripes, numbers per stripe, and a PR takes no number.
#[test]
fn handles_and_numbers_are_counted_apart() {
    play(
        "
        R,0,0,1,0,9   =,0,1  G,1,0,0,1,1,0,0,EOF
        R,0,15,2,0,9  =,0,2  G,2,0,15,2,1,1,0,EOF
        F,0,1         =,0,1
        R,0,0,3,0,9   =,0,3  G,3,0,0,3,1,1,0,EOF
        F,0,3         =,0,3
        R,0,0,2,0,9   =,0,4  G,4,0,0,2,1,2,0,EOF
        ",
    );
}

#[test]
fn a_clients_own_locks_count_like_anyones() {
    play(
        "
        R,7,0,3,0,9  =,0,1  G,1,7,0,3,1,1,0,EOF
        R,7,0,3,0,9  =,0,2  V,1,7,0,3,2,1,0,EOF
        ",
    );
}

/// Acknowledge wants state 2; downgrade wants state 3 and BW or PW.
#[test]
fn states_of_acknowledge_and_downgrade() {
    play(
        "
        R,0,0,4,0,9  =,0,1   G,1,0,0,4,1,1,0,EOF
        A,0,1        =,11,0
        D,0,1        =,11,0
        R,1,0,2,0,9  =,0,2   V,1,0,0,4,2,1,0,EOF
        A,1,2        =,11,0
        D,1,2        =,11,0
        D,0,1        =,11,0
        A,0,1        =,0,1
        A,0,1        =,11,0
        D,0,1        =,0,1   G,2,1,0,2,1,2,0,EOF
        D,0,1        =,11,0
        ",
    );
}

/// 4,294,967,297 is 1 in its low 32 bits, and still names no record.
#[test]
fn handles_that_name_no_record() {
    play(
        "
        R,0,0,1,0,9     =,0,1  G,1,0,0,1,1,0,0,EOF
        A,0,4294967297  =,9,0
        D,0,4294967297  =,9,0
        F,0,4294967297  =,9,0
        F,0,0           =,9,0
        F,0,2           =,9,0
        R,4294967296,0,1,0,9  =,3,0
        R,0,4294967296,1,0,9  =,4,0
        R,0,0,4294967297,0,9  =,5,0
        F,4294967296,1        =,3,0
        ",
    );
}

/// Table II as the document prints it: no conflict, conflict, conflict unless canceling.
const TABLE_II: [&str; 4] = ["nccc", "cucc", "cucc", "cccc"];

/// Each mode asked on byte 5 against each mode held on [0,9] in each state.
#[test]
fn table_ii() {
    let modes = [Mode::PR, Mode::NBW, Mode::BW, Mode::PW];
    for (asked, row) in (1..).zip(TABLE_II) {
        for (held, cell) in modes.into_iter().zip(row.chars()) {
            for state in [State::Granted, State::Asked, State::Canceling] {
                let number = u64::from(held != Mode::PR);
                let conflict = cell == 'c' || cell == 'u' && state != State::Canceling;
                let event = match (conflict, state) {
                    (true, State::Granted) => format!("V,1,0,0,{},2,{number},0,9", held as u64),
                    (true, _) => String::new(),
                    (false, _) if asked == 1 => "G,2,1,0,1,1,0,5,EOF".to_string(),
                    (false, _) => format!("G,2,1,0,{asked},1,{},5,EOF", number + 1),
                };
                let call = format!("R,1,0,{asked},5,5 =,0,2 {event}");
                play_on(&mut holding(held, state), &call);
            }
        }
    }
}

/// Row and column can't be exchanged: BW passes a canceling NBW, and no other pair here passes.
#[test]
fn rows_ask_and_columns_hold() {
    let grants_bw = "R,1,0,3,0,9  =,0,2  G,2,1,0,3,1,2,0,EOF";
    play_on(&mut holding(Mode::NBW, State::Canceling), grants_bw);
    play_on(&mut holding(Mode::BW, State::Canceling), "R,1,0,2,0,9  =,0,2");
    play_on(&mut holding(Mode::NBW, State::Canceling), "R,1,0,1,0,9  =,0,2");
    play_on(&mut holding(Mode::PR, State::Canceling), "R,1,0,2,0,9  =,0,2");
}

/// A sound table need not be settled. The next message grants handle 3 of another stripe
/// and revokes handle 1; grants come first.
#[test]
fn an_unsettled_table_is_settled_by_the_next_message() {
    let mut table = Table { issued: 3, ..Table::default() };
    table.numbers[0] = 1;
    table.records.push(record(1, Mode::NBW, State::Granted, 1));
    table.records.push(record(2, Mode::NBW, State::Waiting, 0));
    table.records.push(Record { stripe: 1, ..record(3, Mode::NBW, State::Waiting, 0) });
    play_on(
        &mut encode(&table),
        "R,5,2,1,0,0  =,0,4  G,3,0,1,2,1,1,0,EOF  G,4,5,2,1,1,0,0,EOF  V,1,0,0,2,2,1,0,9",
    );
}

/// 255 waiting PR and a new one are granted in one call, which fills the event buffer.
#[test]
fn at_most_256_events() {
    let mut table = Table { issued: 255, ..Table::default() };
    table.records = (1..=255).map(|handle| record(handle, Mode::PR, State::Waiting, 0)).collect();
    let grants: String = (1..=256).map(|handle| format!(" G,{handle},0,0,1,1,0,0,EOF")).collect();
    play_on(&mut encode(&table), &format!("R,0,0,1,0,9 =,0,256{grants}"));
}

#[test]
fn the_last_handle() {
    let table = Table { issued: 4_294_967_294, ..Table::default() };
    play_on(
        &mut encode(&table),
        "
        R,0,0,2,0,9   =,0,4294967295  G,4294967295,0,0,2,1,1,0,EOF
        R,0,1,2,0,9   =,7,0
        F,0,4294967295  =,0,4294967295
        R,0,1,2,0,9   =,7,0
        ",
    );
}

fn empty() -> (Vec<u8>, Vec<u8>) {
    (vec![0; MAP_BYTES], vec![0; LOG_BYTES])
}

/// A resend after a cut write stores the piece again.
#[test]
fn an_equal_age_is_written_again() {
    let (mut map, mut log) = empty();
    let mut image = *b"......";
    assert_eq!(note(&mut map, &mut log, Piece::new(1, 3, 2, 1), 6), 0);
    assert_eq!(write(&map, &mut image, Piece::new(1, b"AAA", 2, 1)), 0);
    image[1..4].copy_from_slice(b"?A?");
    assert_eq!(write(&map, &mut image, Piece::new(1, b"AAA", 2, 1)), 0);
    assert_eq!(&image, b".AAA..");
}

/// A write under a greater number is accepted and stores nothing there.
#[test]
fn a_smaller_number_is_accepted_and_not_stored() {
    let (mut map, mut log) = empty();
    let mut image = *b"......";
    assert_eq!(note(&mut map, &mut log, Piece::new(0, 6, 4, 1), 6), 0);
    assert_eq!(write(&map, &mut image, Piece::new(0, b"AAAAAA", 3, 1)), 0);
    assert_eq!(&image, b"......");
}

/// One byte under a smaller number refuses the whole piece.
#[test]
fn a_gap_refuses_the_whole_write() {
    let (mut map, mut log) = empty();
    let mut image = *b"......";
    assert_eq!(note(&mut map, &mut log, Piece::new(0, 5, 2, 1), 6), 0);
    assert_eq!(write(&map, &mut image, Piece::new(0, b"AAAAAA", 2, 1)), 18);
    assert_eq!(write(&map, &mut image, Piece::new(5, b"A", 1, 1)), 18);
    assert_eq!(&image, b"......");
}

/// The seam of a restart: the old piece with the smaller number is noted last and doesn't win.
#[test]
fn an_old_piece_noted_after_a_restart() {
    let (mut map, mut log) = empty();
    let mut image = *b"..........";
    assert_eq!(note(&mut map, &mut log, Piece::new(4, 4, 3, 1), 10), 0);
    assert_eq!(write(&map, &mut image, Piece::new(4, b"NNNN", 3, 1)), 0);
    map.fill(0xEE);
    assert_eq!(restart(&mut map, &log), 0);
    assert_eq!(note(&mut map, &mut log, Piece::new(0, 10, 2, 1), 10), 0);
    assert!(map == runs(MAP_BYTES, &[(0, 3, 2, 1), (4, 7, 3, 1), (8, 9, 2, 1)]));
    assert_eq!(write(&map, &mut image, Piece::new(0, b"OOOOOOOOOO", 2, 1)), 0);
    assert_eq!(&image, b"OOOONNNNOO");
    map.fill(0xEE);
    assert_eq!(restart(&mut map, &log), 0);
    assert!(map == runs(MAP_BYTES, &[(0, 3, 2, 1), (4, 7, 3, 1), (8, 9, 2, 1)]));
}

/// A note changes the log in its entry's 24 bytes and the count; other bytes past the entries stay.
#[test]
fn bytes_after_the_entries_stay() {
    let mut map = runs(MAP_BYTES, &[(0, 3, 2, 1)]);
    let mut log = runs(LOG_BYTES, &[(0, 3, 2, 1)]);
    log[run_at(1)..].fill(0xEE);
    assert_eq!(note(&mut map, &mut log, Piece::new(4, 1, 7, 9), 5), 0);
    let mut expected = runs(LOG_BYTES, &[(0, 3, 2, 1), (4, 4, 7, 9)]);
    expected[run_at(2)..].fill(0xEE);
    assert!(log == expected);
    assert_eq!(restart(&mut map, &log), 0);
    assert!(map == runs(MAP_BYTES, &[(0, 3, 2, 1), (4, 4, 7, 9)]));
}

/// No sum of 64-bit numbers wraps, and none is narrowed.
#[test]
fn pieces_at_the_limits() {
    const EOF: u64 = 9_223_372_036_854_775_807;
    const MOST: u64 = u64::MAX;
    for (first, length, number, image_length, answer) in [
        (5, 5, 1, 10, 0),
        (5, 6, 1, 10, 14),
        (10, 1, 1, 10, 14),
        (0, 1, 1, 0, 14),
        (EOF, 1, 1, EOF + 1, 0),
        (EOF, 1, 1, EOF, 14),
        (EOF, 2, 1, MOST, 14),
        (EOF + 1, 1, 1, MOST, 14),
        (0, EOF + 1, 1, MOST, 0),
        (0, EOF + 2, 1, MOST, 14),
        (0, MOST, 1, MOST, 14),
        (MOST, 1, 1, MOST, 14),
        (MOST, MOST, 1, MOST, 14),
        (2, MOST, 1, 10, 14),
        (0, 1, 4_294_967_295, 10, 0),
        (0, 1, 4_294_967_296, 10, 15),
        (0, 1, 4_294_967_297, 10, 15),
    ] {
        let (mut map, mut log) = empty();
        let answered = note(&mut map, &mut log, Piece::new(first, length, number, 1), image_length);
        assert_eq!(answered, answer, "{first} {length} {number} {image_length}");
        let noted = (first, first.wrapping_add(length).wrapping_sub(1), number as u32, 1);
        let expected = if answer == 0 { vec![noted] } else { vec![] };
        assert!(map == runs(MAP_BYTES, &expected) && log == runs(LOG_BYTES, &expected));
    }
    let (map, _) = empty();
    let mut image = *b"......";
    assert_eq!(write(&map, &mut image, Piece::new(MOST, b"A", 1, 1)), 14);
    assert_eq!(write(&map, &mut image, Piece::new(6, b"A", 1, 1)), 14);
    assert_eq!(write(&map, &mut image, Piece::new(0, b"A", 4_294_967_297, 1)), 15);
}

/// 1,025 bytes apart need too many runs; one entry over them all needs one.
#[test]
fn restart_judges_the_whole_log() {
    let mut entries: Vec<_> = (0..1_025).map(|place| (2 * place, 2 * place, 1, 1)).collect();
    let mut map = vec![0xEE; MAP_BYTES];
    assert_eq!(restart(&mut map, &runs(LOG_BYTES, &entries)), 16);
    assert!(map == vec![0xEE; MAP_BYTES]);
    entries.push((0, 4_096, 2, 1));
    assert_eq!(restart(&mut map, &runs(LOG_BYTES, &entries)), 0);
    assert!(map == runs(MAP_BYTES, &[(0, 4_096, 2, 1)]));
}

/// The entries of a compacted log are the runs of its map, rising: a covered entry goes, a cut one is in
/// parts, touching ones of one age are one. Zeros stand after them up to the log's end.
#[test]
fn compaction_leaves_the_runs_of_the_map() {
    let mut old_log = runs(
        LOG_BYTES,
        &[(20, 29, 4, 1), (0, 9, 2, 1), (3, 4, 3, 1), (24, 25, 1, 1), (10, 12, 2, 1), (3, 4, 2, 1)],
    );
    old_log[run_at(6)..].fill(0xEE);
    let mut new_log = vec![0xEE; LOG_BYTES];
    assert_eq!(compact(&old_log, &mut new_log), 0);
    let expected = runs(LOG_BYTES, &[(0, 2, 2, 1), (3, 4, 3, 1), (5, 12, 2, 1), (20, 29, 4, 1)]);
    assert!(new_log == expected);
    old_log.fill(0xEE);
    assert_eq!(compact(&new_log, &mut old_log), 0);
    assert!(old_log == expected);
}

/// An empty log, and one over all bytes.
#[test]
fn compaction_at_the_ends() {
    const EOF: u64 = 9_223_372_036_854_775_807;
    let mut new_log = vec![0xEE; LOG_BYTES];
    assert_eq!(compact(&[0; LOG_BYTES], &mut new_log), 0);
    assert!(new_log == vec![0; LOG_BYTES]);
    let ends = [(0, EOF, 1, 1), (EOF, EOF, 4_294_967_295, 4_294_967_295), (0, 0, 1, 2)];
    assert_eq!(compact(&runs(LOG_BYTES, &ends), &mut new_log), 0);
    let expected = [(0, 0, 1, 2), (1, EOF - 1, 1, 1), (EOF, EOF, 4_294_967_295, 4_294_967_295)];
    assert!(new_log == runs(LOG_BYTES, &expected));
}

/// 2,048 entries of one run need one entry; then a note is accepted that was refused with 17.
#[test]
fn a_full_log_has_room_again() {
    let (mut map, log) =
        (runs(MAP_BYTES, &[(0, 0, 1, 1)]), runs(LOG_BYTES, &vec![(0, 0, 1, 1); 2_048]));
    assert_eq!(note(&mut map, &mut log.clone(), Piece::new(1, 1, 2, 1), 9), 17);
    let mut new_log = vec![0xEE; LOG_BYTES];
    assert_eq!(compact(&log, &mut new_log), 0);
    assert_eq!(note(&mut map, &mut new_log, Piece::new(1, 1, 2, 1), 9), 0);
    assert!(new_log == runs(LOG_BYTES, &[(0, 0, 1, 1), (1, 1, 2, 1)]));
    assert!(map == runs(MAP_BYTES, &[(0, 0, 1, 1), (1, 1, 2, 1)]));
}

/// Compaction judges the whole log, as a restart does, and nothing is stored before 16.
#[test]
fn compaction_judges_the_whole_log() {
    let mut entries: Vec<_> = (0..1_025).map(|place| (2 * place, 2 * place, 1, 1)).collect();
    let mut new_log = vec![0xEE; LOG_BYTES];
    assert_eq!(compact(&runs(LOG_BYTES, &entries), &mut new_log), 16);
    assert!(new_log == vec![0xEE; LOG_BYTES]);
    entries.push((0, 4_096, 2, 1));
    assert_eq!(compact(&runs(LOG_BYTES, &entries), &mut new_log), 0);
    assert!(new_log == runs(LOG_BYTES, &[(0, 4_096, 2, 1)]));
}

/// Why no note may come between the call and the turn: its entry stands in the old log alone. After the
/// turn and a restart the later piece has lost its place to the older one.
#[test]
fn a_note_between_compaction_and_turn_is_lost() {
    let (mut map, mut log) = empty();
    let mut image = *b"......";
    assert_eq!(note(&mut map, &mut log, Piece::new(0, 6, 1, 1), 6), 0);
    let mut new_log = vec![0xEE; LOG_BYTES];
    assert_eq!(compact(&log, &mut new_log), 0);
    assert_eq!(note(&mut map, &mut log, Piece::new(2, 2, 2, 1), 6), 0);
    assert_eq!(write(&map, &mut image, Piece::new(2, b"LL", 2, 1)), 0);
    assert_eq!(&image, b"..LL..");
    // The turn to the stale log, and a cut.
    assert_eq!(restart(&mut map, &new_log), 0);
    assert!(map == runs(MAP_BYTES, &[(0, 5, 1, 1)]));
    assert_eq!(write(&map, &mut image, Piece::new(0, b"OOOOOO", 1, 1)), 0);
    assert_eq!(&image, b"OOOOOO");
    // Compacted again before the turn, it is kept.
    assert_eq!(compact(&log, &mut new_log), 0);
    assert_eq!(restart(&mut map, &new_log), 0);
    assert!(map == runs(MAP_BYTES, &[(0, 1, 1, 1), (2, 3, 2, 1), (4, 5, 1, 1)]));
}

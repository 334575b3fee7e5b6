//! Lists of marked requests. Each case is worked out by hand from the rules, as document 02 has them in
//! request #101.

use crate::transcript::play_on;
use gilboreth_host::beside::Beside;
use gilboreth_host::calls::LIBRARY;
use gilboreth_host::entries::Item;

const EOF: u64 = 9_223_372_036_854_775_807;

/// What is shown of a record, first six integers, then first and last; and its mark.
type Written = ([u32; 6], u64, u64, u32);

/// A table written out by hand: handles issued, the last number of stripe 0, and the records.
fn table(issued: u32, number: u32, records: &[Written]) -> Vec<u8> {
    let integers = |integers: &[u32]| integers.iter().flat_map(|n| n.to_be_bytes()).collect();
    let mut head = [0; 18];
    (head[0], head[1], head[17]) = (issued, number, records.len() as u32);
    let mut bytes: Vec<u8> = integers(&head);
    for (fields, first, last, mark) in records {
        bytes.extend(integers(fields));
        bytes.extend(first.to_be_bytes());
        bytes.extend(last.to_be_bytes());
        bytes.extend(mark.to_be_bytes());
    }
    bytes.resize(11_336, 0);
    bytes
}

/// Two ranks write blocks of ten bytes in turn. Each asks for its own ahead, and nobody is asked for
/// anything.
#[test]
fn strided_ranks() {
    let mut end = table(0, 0, &[]);
    play_on(
        &mut end,
        "
        I,0,0,2,0,9    =,0,1  G,1,0,0,2,1,1,0,9
        I,0,0,2,20,29  =,0,2  G,2,0,0,2,1,2,20,29
        ",
    );
    play_on(
        &mut end,
        "
        I,1,0,2,10,19  =,0,3  G,3,1,0,2,1,3,10,19
        I,1,0,2,30,39  =,0,4  G,4,1,0,2,1,4,30,39
        ",
    );
    let lock = |handle: u32, client: u32, first: u64| {
        ([handle, client, 0, 2, 1, handle], first, first + 9, 0)
    };
    assert!(end == table(4, 4, &[lock(1, 0, 0), lock(2, 0, 20), lock(3, 1, 10), lock(4, 1, 30)]));
}

/// Of each mode, and at the end of the stripe too.
#[test]
fn a_marked_grant_ends_where_it_asked() {
    let mut table = table(0, 0, &[]);
    play_on(
        &mut table,
        "
        I,0,0,1,0,9       =,0,1  G,1,0,0,1,1,0,0,9
        I,0,0,2,20,29     =,0,2  G,2,0,0,2,1,1,20,29
        I,0,0,3,40,40     =,0,3  G,3,0,0,3,1,2,40,40
        I,0,0,4,60,69     =,0,4  G,4,0,0,4,1,3,60,69
        I,0,0,2,EOF,EOF   =,0,5  G,5,0,0,2,1,4,EOF,EOF
        I,0,1,4,0,EOF     =,0,6  G,6,0,1,4,1,1,0,EOF
        ",
    );
}

/// Handle 2 waits with the word 1, handle 3 with 0. Both are granted by the release: the marked one ends
/// where it asked and its word is 0, the other is widened.
#[test]
fn a_marked_request_that_waits() {
    let mut bytes = table(0, 0, &[]);
    play_on(
        &mut bytes,
        "
        R,0,0,4,0,0    =,0,1  G,1,0,0,4,1,1,0,EOF
        I,1,0,2,5,9    =,0,2  V,1,0,0,4,2,1,0,EOF
        R,2,0,2,20,29  =,0,3
        ",
    );
    let (one, two) = (([1, 0, 0, 4, 2, 1], 0, EOF, 0), ([2, 1, 0, 2, 0, 0], 5, 9, 1));
    assert!(bytes == table(3, 1, &[one, two, ([3, 2, 0, 2, 0, 0], 20, 29, 0)]));
    play_on(&mut bytes, "F,0,1  =,0,1  G,2,1,0,2,1,2,5,9  G,3,2,0,2,1,3,20,EOF");
    let two = ([2, 1, 0, 2, 1, 2], 5, 9, 0);
    assert!(bytes == table(3, 3, &[two, ([3, 2, 0, 2, 1, 3], 20, EOF, 0)]));
}

/// Example P2 with marks: who comes last is granted in state 1, and ends where it asked.
#[test]
fn early_grants_of_marked_requests() {
    let mut bytes = table(0, 0, &[]);
    play_on(
        &mut bytes,
        "
        R,0,0,2,0,9  =,0,1  G,1,0,0,2,1,1,0,EOF
        I,1,0,2,0,9  =,0,2  V,1,0,0,2,2,1,0,EOF
        I,2,0,2,0,9  =,0,3
        I,3,0,2,0,9  =,0,4
        A,0,1        =,0,1  G,2,1,0,2,3,2,0,9  G,3,2,0,2,3,3,0,9  G,4,3,0,2,1,4,0,9
        ",
    );
    let lock = |handle: u32, state: u32| ([handle, handle - 1, 0, 2, state, handle], 0, 9, 0);
    let first = ([1, 0, 0, 2, 3, 1], 0, EOF, 0);
    assert!(bytes == table(4, 4, &[first, lock(2, 3), lock(3, 3), lock(4, 1)]));
}

/// A waiting marked request is withdrawn like any other, and so is its mark.
#[test]
fn a_marked_request_is_withdrawn() {
    let mut bytes = table(0, 0, &[]);
    play_on(
        &mut bytes,
        "
        R,0,0,4,0,9  =,0,1  G,1,0,0,4,1,1,0,EOF
        I,1,0,4,0,9  =,0,2  V,1,0,0,4,2,1,0,EOF
        A,1,2        =,11,0
        F,1,2        =,0,2
        ",
    );
    assert!(bytes == table(2, 1, &[([1, 0, 0, 4, 2, 1], 0, EOF, 0)]));
}

/// A marked request that waits stops another's widening, and is in its way if the other comes later.
#[test]
fn a_waiting_marked_request_counts_like_any() {
    let mut table = table(0, 0, &[]);
    play_on(
        &mut table,
        "
        R,0,0,4,30,30  =,0,1  G,1,0,0,4,1,1,30,EOF
        I,1,0,2,20,39  =,0,2  V,1,0,0,4,2,1,30,EOF
        R,2,0,2,0,5    =,0,3  G,3,2,0,2,1,2,0,19
        R,3,0,1,10,25  =,0,4  V,3,2,0,2,2,2,0,19
        ",
    );
}

/// A lock that a list got stops another's widening, and is asked back, downgraded and released like any.
#[test]
fn a_held_marked_lock_counts_like_any() {
    let mut table = table(0, 0, &[]);
    play_on(
        &mut table,
        "
        I,0,0,3,20,29  =,0,1  G,1,0,0,3,1,1,20,29
        R,1,0,2,0,5    =,0,2  G,2,1,0,2,1,2,0,19
        R,1,0,2,40,45  =,0,3  G,3,1,0,2,1,3,40,EOF
        I,2,0,2,25,35  =,0,4  V,1,0,0,3,2,1,20,29
        A,0,1          =,0,1
        D,0,1          =,0,1  G,4,2,0,2,1,4,25,35
        F,0,1          =,0,1
        ",
    );
}

/// The items of a list meet each other, a client's own too. Each item's revocations come before the next
/// one's grants.
#[test]
fn items_that_meet_each_other() {
    let mut bytes = table(0, 0, &[]);
    play_on(
        &mut bytes,
        "
        I,0,0,3,0,9    =,0,1  G,1,0,0,3,1,1,0,9
        I,0,0,3,5,14   =,0,2  V,1,0,0,3,2,1,0,9
        I,0,0,2,20,29  =,0,3  G,3,0,0,2,1,2,20,29
        I,0,0,1,12,25  =,0,4  V,3,0,0,2,2,2,20,29
        ",
    );
    let waiting = |handle, mode, first, last| ([handle, 0, 0, mode, 0, 0], first, last, 1);
    let (one, three) = (([1, 0, 0, 3, 2, 1], 0, 9, 0), ([3, 0, 0, 2, 2, 2], 20, 29, 0));
    let (two, four) = (waiting(2, 3, 5, 14), waiting(4, 1, 12, 25));
    assert!(bytes == table(4, 2, &[one, two, three, four]));
}

/// A refused item changes nothing but its own answer, wherever it stands; it takes no handle.
#[test]
fn refused_items() {
    let mut table = table(0, 0, &[]);
    play_on(
        &mut table,
        "
        I,64,0,2,0,9                     =,3,0
        I,0,0,2,0,9                      =,0,1  G,1,0,0,2,1,1,0,9
        I,0,16,2,0,9                     =,4,0
        I,0,0,0,0,9                      =,5,0
        I,0,0,5,0,9                      =,5,0
        I,0,0,2,9,8                      =,6,0
        I,0,0,2,0,9223372036854775808    =,6,0
        I,4294967296,0,2,0,9             =,3,0
        I,64,16,5,9,8                    =,3,0
        I,63,15,4,0,9                    =,0,2  G,2,63,15,4,1,1,0,9
        I,0,0,2,10,19                    =,0,3  G,3,0,0,2,1,2,10,19
        I,0,18446744073709551615,2,0,9   =,4,0
        ",
    );
}

/// Of four items two find room. With the last handle it is one.
#[test]
fn lists_at_the_limits() {
    let lock = |handle| ([handle, 0, 0, 1, 1, 0], 0, 9, 0);
    let records: Vec<Written> = (1..=254).map(lock).collect();
    play_on(
        &mut table(254, 0, &records),
        "
        I,1,1,2,0,9    =,0,255  G,255,1,1,2,1,1,0,9
        I,1,1,2,20,29  =,0,256  G,256,1,1,2,1,2,20,29
        I,1,1,2,40,49  =,8,0
        I,1,16,2,0,9   =,4,0
        I,1,1,2,60,69  =,8,0
        ",
    );
    play_on(
        &mut table(4_294_967_294, 0, &records),
        "
        I,1,1,2,0,9    =,0,4294967295  G,4294967295,1,1,2,1,1,0,9
        I,1,1,2,20,29  =,7,0
        I,1,1,0,20,29  =,5,0
        ",
    );
}

/// A sound table that is not settled: handle 3 of stripe 1 waits for nobody, and handle 1 is not asked
/// back though handle 2 wants it. A list without an accepted item leaves it so; the first accepted item
/// settles it, and the second finds it settled.
#[test]
fn lists_on_a_table_that_is_not_settled() {
    let one = ([1, 0, 0, 2, 1, 1], 0, 9, 0);
    let two = ([2, 0, 0, 2, 0, 0], 0, 9, 0);
    let records = [one, two, ([3, 0, 1, 2, 0, 0], 0, 9, 1)];
    let mut bytes = table(3, 1, &records);
    let mut events = vec![0xEE; 22_532];
    let nothing = Beside::new(LIBRARY).list(&mut bytes, &mut events, &mut []);
    assert_eq!((nothing.refusal, nothing.handle, nothing.events), (0, 0, 0));
    assert!(bytes == table(3, 1, &records) && events[..5] == [0, 0, 0, 0, 0xEE]);
    play_on(
        &mut bytes,
        "
        I,64,0,1,0,9  =,3,0
        I,0,0,9,0,9   =,5,0
        ",
    );
    assert!(bytes == table(3, 1, &records));
    play_on(
        &mut bytes,
        "
        I,5,2,0,0,0  =,5,0
        I,5,2,1,0,0  =,0,4  G,3,0,1,2,1,1,0,9  G,4,5,2,1,1,0,0,0  V,1,0,0,2,2,1,0,9
        I,5,2,1,3,4  =,0,5  G,5,5,2,1,1,0,3,4
        ",
    );
}

/// A table of 10,312 bytes, with records of 40, is refused by its length. With 4 zero bytes after each
/// record, as the header says, it goes on.
#[test]
fn tables_from_before_the_marks() {
    let records: [Written; 2] = [([1, 0, 0, 4, 2, 1], 0, EOF, 0), ([2, 1, 0, 2, 0, 0], 5, 9, 0)];
    let new = table(2, 1, &records);
    let mut old = new[..72].to_vec();
    old.extend(new[72..72 + 88].chunks(44).flat_map(|record| &record[..40]));
    old.resize(10_312, 0);
    let mut items = [Item { mode: 1, stripe: 1, ..Item::default() }];
    let listed = Beside::new(LIBRARY).list(&mut old.clone(), &mut vec![0; 22_532], &mut items);
    assert_eq!((listed.refusal, items[0].handle), (2, 0));

    let mut mended = old[..72].to_vec();
    for record in old[72..72 + 80].chunks(40) {
        mended.extend(record);
        mended.extend([0; 4]);
    }
    mended.resize(11_336, 0);
    assert!(mended == new);
    play_on(&mut old, "F,0,1  =,2,0");
    play_on(&mut mended, "F,0,1  =,0,1  G,2,1,0,2,1,2,5,EOF");
}

//! The library's four messages and its list beside the model, answer by answer and byte by byte.

mod lock_scenes;
mod messages;
mod tables;

use gilboreth_host::beside::{finds_out, Beside};
use gilboreth_host::calls::{Calls, RequestList, LIBRARY};
use gilboreth_host::entries::Item;
use gilboreth_host::model::locks::{decode, event_at, record_at, Answer, EVENT_BYTES, SHOWN_BYTES};
use lock_scenes::{damage, drawn, edges, limits, lists, sessions};
use std::collections::BTreeSet;
use std::thread::scope;

/// Four sorts of sessions, which differ in how fast their tables fill. They reach every refusal
/// and every event: grants of each mode in states 1 and 3, revocations of each mode in state 2.
#[test]
fn sessions() {
    let sorts = [(0..150, 3), (150..300, 3), (0..150, 4), (150..300, 4), (0..100, 6), (0..20, 9)];
    let mut library = Beside::new(LIBRARY);
    scope(|threads| {
        let played = sorts.map(|(seeds, requests)| {
            threads.spawn(move || {
                let mut library = Beside::new(LIBRARY);
                sessions::play(&mut library, seeds, requests);
                library
            })
        });
        for part in played {
            library.join(part.join().unwrap());
        }
    });
    library.reached(230_400, &[0, 1, 2, 3, 4, 5, 6, 7, 8, 9, 10, 11]);
    assert_eq!(library.events, every_event());
}

/// Grants of each mode in states 1 and 3, revocations of each mode in state 2.
fn every_event() -> BTreeSet<[u32; 3]> {
    let kinds = [[1, 1], [1, 3], [2, 2]];
    kinds.iter().flat_map(|[kind, state]| (1..=4).map(|mode| [*kind, mode, *state])).collect()
}

#[test]
fn full_tables() {
    let mut library = Beside::new(LIBRARY);
    limits::full_tables(&mut library, 0..12);
    library.reached(3_000, &[0, 8]);
}

#[test]
fn highest_handles() {
    let mut library = Beside::new(LIBRARY);
    limits::highest_handles(&mut library, 0..200);
    library.reached(1_000, &[0, 7, 10, 11]);
}

#[test]
fn drawn_tables() {
    let mut library = Beside::new(LIBRARY);
    drawn::small(&mut library, 0..2_000);
    library.reached(16_000, &[0, 7, 10, 11]);
}

#[test]
fn large_drawn_tables() {
    let mut library = Beside::new(LIBRARY);
    drawn::large(&mut library, 0..30);
    library.reached(240, &[0, 7, 8, 10, 11]);
}

#[test]
fn rules_of_soundness() {
    let mut library = Beside::new(LIBRARY);
    damage::rules(&mut library);
    library.reached(180, &[0, 2, 11]);
}

#[test]
fn flipped_bits() {
    let mut library = Beside::new(LIBRARY);
    damage::flips(&mut library, 0..1_000);
    library.reached(16_000, &[0, 2, 7, 9, 10, 11]);
}

#[test]
fn each_bit() {
    let mut library = Beside::new(LIBRARY);
    damage::each_bit(&mut library);
    library.reached(10_240, &[0, 2, 10, 11]);
}

#[test]
fn each_record() {
    let mut library = Beside::new(LIBRARY);
    damage::each_record(&mut library);
    library.reached(512, &[0, 2]);
}

#[test]
fn pairs() {
    let mut library = Beside::new(LIBRARY);
    damage::pairs(&mut library, 0..2_000);
    library.reached(2_000, &[0, 2]);
}

#[test]
fn each_byte_after_the_records() {
    let mut library = Beside::new(LIBRARY);
    damage::each_byte_after(&mut library);
    library.reached(10_000, &[2]);
}

#[test]
fn numbers_of_messages() {
    let mut library = Beside::new(LIBRARY);
    edges::numbers(&mut library);
    library.reached(44_000, &[0, 3, 4, 5, 6, 9, 10, 11]);
}

#[test]
fn fields() {
    let mut library = Beside::new(LIBRARY);
    edges::fields(&mut library);
    library.reached(8_000, &[0, 2, 7, 10, 11]);
}

#[test]
fn lengths() {
    let mut library = Beside::new(LIBRARY);
    edges::lengths(&mut library);
    library.reached(576, &[0, 1, 2, 3, 11]);
}

#[test]
fn lengths_of_lists() {
    let mut library = Beside::new(LIBRARY);
    lists::lengths(&mut library);
    library.reached(540, &[0, 1, 2, 19]);
    library.reached_items(500, &[0, 3, 4, 5, 6]);
}

#[test]
fn rules_of_soundness_for_lists() {
    let mut library = Beside::new(LIBRARY);
    lists::rules(&mut library);
    library.reached(224, &[0, 2, 19]);
}

#[test]
fn bad_items() {
    let mut library = Beside::new(LIBRARY);
    lists::bad_items(&mut library);
    library.reached(1_092, &[0]);
    library.reached_items(69_888, &[0, 3, 4, 5, 6, 7, 8]);
}

#[test]
fn lists_on_full_tables() {
    let mut library = Beside::new(LIBRARY);
    lists::full_tables(&mut library, 0..6);
    library.reached(390, &[0]);
    library.reached_items(24_960, &[0, 8]);
}

#[test]
fn lists_on_drawn_tables() {
    let mut library = Beside::new(LIBRARY);
    lists::drawn_tables(&mut library, 0..2_500);
    library.reached(20_000, &[0, 1, 2, 19]);
    library.reached_items(100_000, &[0, 3, 4, 5, 6, 7]);
}

#[test]
fn lists_one_by_one() {
    let mut library = Beside::new(LIBRARY);
    lists::one_by_one(&mut library, 0..1_000);
    library.reached(6_000, &[0]);
    library.reached_items(10_000, &[0, 3, 4, 5, 6, 7]);
}

/// Lists and messages reach every event that messages alone do.
#[test]
fn sessions_with_lists() {
    let mut library = Beside::new(LIBRARY);
    lists::sessions(&mut library, 0..80, 3);
    lists::sessions(&mut library, 80..100, 1);
    library.reached(8_000, &[0, 8, 10, 11]);
    library.reached_items(20_000, &[0, 3, 4, 5, 6, 8]);
    assert_eq!(library.events, every_event());
}

#[test]
fn most_events_of_a_list() {
    let mut library = Beside::new(LIBRARY);
    lists::most_events(&mut library);
    lists::many_events(&mut library);
    library.reached(2, &[0]);
}

#[test]
fn numbers_of_items() {
    let mut library = Beside::new(LIBRARY);
    lists::numbers(&mut library);
    library.reached(5_512, &[0]);
    library.reached_items(44_100, &[0, 3, 4, 5, 6]);
}

#[test]
fn lists_that_accept_nothing() {
    let mut library = Beside::new(LIBRARY);
    lists::nothing_accepted(&mut library);
    library.reached(66, &[0]);
    library.reached_items(2_080, &[3, 4, 5, 6]);
}

/// Useless versions, and some that are nearly right: the scenes find each of them out.
#[test]
fn wrong_versions() {
    let request: [(&str, Calls); 4] = [
        (
            "every request is refused",
            Calls {
                request: |_, _, _, _, _, _, _| Answer { refusal: 8, handle: 0, events: 0 },
                ..LIBRARY
            },
        ),
        (
            "one fixed answer",
            Calls {
                request: |table, events, client, stripe, mode, first, last| Answer {
                    handle: 1,
                    ..(LIBRARY.request)(table, events, client, stripe, mode, first, last)
                },
                ..LIBRARY
            },
        ),
        (
            "an event count that isn't that of the list",
            Calls {
                request: |table, events, client, stripe, mode, first, last| {
                    let answer =
                        (LIBRARY.request)(table, events, client, stripe, mode, first, last);
                    Answer { events: answer.events.min(1), ..answer }
                },
                ..LIBRARY
            },
        ),
        (
            "the bytes after the events are cleared",
            Calls {
                request: |table, events, client, stripe, mode, first, last| {
                    let answer =
                        (LIBRARY.request)(table, events, client, stripe, mode, first, last);
                    if answer.refusal == 0 {
                        events[event_at(answer.events as usize)..].fill(0);
                    }
                    answer
                },
                ..LIBRARY
            },
        ),
    ];
    let release = Calls {
        release: |table, events, client, handle| {
            (LIBRARY.release)(&mut table.to_vec(), events, client, handle)
        },
        ..LIBRARY
    };
    for (name, calls) in request {
        assert!(finds_out(calls, |wrong| sessions::play(wrong, 0..20, 4)), "{name}");
    }
    assert!(finds_out(release, |wrong| limits::full_tables(wrong, 0..1)), "no room is used again");
    assert!(!finds_out(LIBRARY, |right| sessions::play(right, 0..20, 4)));
}

/// A list that is another's with something done to its answer.
fn altered(
    table: &mut [u8],
    events: &mut [u8],
    items: &mut [Item],
    alter: impl FnOnce(&mut [u8], &mut [u8], &mut [Item], &mut Answer),
) -> Answer {
    let mut answer = (LIBRARY.request_list)(table, events, items);
    if answer.refusal == 0 {
        alter(table, events, items, &mut answer);
    }
    answer
}

/// Lists that are nearly right: the scenes find each of them out.
#[test]
fn wrong_lists() {
    let wrong: [(&str, RequestList, Scene); 10] = [
        (
            "a marked grant that widens",
            |table, events, items| {
                if items.len() != 1 {
                    return (LIBRARY.request_list)(table, events, items);
                }
                let Item { client, stripe, mode, first, last, .. } = items[0];
                let answer = (LIBRARY.request)(table, events, client, stripe, mode, first, last);
                let Answer { refusal, handle, events } = answer;
                items[0] = Item { refusal, handle, events, ..items[0] };
                Answer { refusal: 0, handle: 0, events }
            },
            |wrong| lists::one_by_one(wrong, 0..20),
        ),
        (
            "a mark that outlives its grant",
            |table, events, items| {
                altered(table, events, items, |table, _, items, _| {
                    let records = decode(table).unwrap().records;
                    for (place, record) in records.iter().enumerate() {
                        if record.held() && items.iter().any(|item| item.handle == record.handle) {
                            table[record_at(place) + SHOWN_BYTES + 3] = 1;
                        }
                    }
                })
            },
            |wrong| lists::one_by_one(wrong, 0..20),
        ),
        (
            "an answer stored in the next item",
            |table, events, items| {
                let asked = items.to_vec();
                altered(table, events, items, |_, _, items, _| {
                    for place in (0..items.len()).rev() {
                        let Item { refusal, handle, events, .. } =
                            if place == 0 { asked[0] } else { items[place - 1] };
                        items[place] = Item { refusal, handle, events, ..items[place] };
                    }
                })
            },
            lists::bad_items,
        ),
        (
            "a list that stops at the first refused item",
            |table, events, items| {
                let mut tried = items.to_vec();
                let (t, e) = (&mut table.to_vec(), &mut events.to_vec());
                let answer = (LIBRARY.request_list)(t, e, &mut tried);
                let stop = tried.iter().position(|item| item.refusal != 0).map(|place| place + 1);
                match stop {
                    Some(stop) if answer.refusal == 0 => {
                        (LIBRARY.request_list)(table, events, &mut items[..stop])
                    }
                    _ => (LIBRARY.request_list)(table, events, items),
                }
            },
            lists::bad_items,
        ),
        (
            "a list that is undone by a refused item",
            |table, events, items| {
                let (old, count) = (table.to_vec(), items.len());
                altered(table, events, items, |table, _, items, _| {
                    if items.iter().filter(|item| item.refusal == 0).count() < count {
                        table.copy_from_slice(&old);
                    }
                })
            },
            lists::bad_items,
        ),
        (
            "events of the second item over those of the first",
            |table, events, items| {
                altered(table, events, items, |_, events, items, answer| {
                    if let [first, second, ..] = items {
                        let (from, to) = (first.events as usize, second.events as usize);
                        let moved = events[event_at(from)..event_at(from + to)].to_vec();
                        events[4..4 + moved.len()].copy_from_slice(&moved);
                        let end = event_at(answer.events as usize);
                        events[end - EVENT_BYTES * from.min(to)..end].fill(0xEE);
                    }
                })
            },
            |wrong| lists::one_by_one(wrong, 0..20),
        ),
        (
            "19 before 2",
            |table, events, items| {
                let answer = (LIBRARY.request_list)(table, events, items);
                let both = answer.refusal == 2 && items.len() > 64;
                Answer { refusal: if both { 19 } else { answer.refusal }, ..answer }
            },
            lists::lengths,
        ),
        (
            "the event buffer of a single request",
            |table, events, items| {
                let mut longer = events.to_vec();
                longer.resize(events.len().max(22_532), 0xEE);
                let answer = (LIBRARY.request_list)(table, &mut longer, items);
                events.copy_from_slice(&longer[..events.len()]);
                answer
            },
            lists::lengths,
        ),
        (
            "the bytes after the events are cleared",
            |table, events, items| {
                altered(table, events, items, |_, events, _, answer| {
                    events[event_at(answer.events as usize)..].fill(0);
                })
            },
            |wrong| lists::sessions(wrong, 0..1, 3),
        ),
        (
            "a list that accepts nothing leaves the count",
            |table, events, items| {
                let old = events.to_vec();
                altered(table, events, items, |_, events, items, _| {
                    if items.iter().all(|item| item.refusal != 0) {
                        events.copy_from_slice(&old);
                    }
                })
            },
            lists::nothing_accepted,
        ),
    ];
    for (name, request_list, scene) in wrong {
        assert!(finds_out(Calls { request_list, ..LIBRARY }, scene), "{name}");
    }
    assert!(!finds_out(LIBRARY, |right| lists::one_by_one(right, 0..20)));
    assert!(!finds_out(LIBRARY, lists::nothing_accepted));
}

type Scene = fn(&mut Beside);

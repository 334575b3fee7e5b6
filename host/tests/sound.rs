//! Each rule of a sound table, map and log: one change breaks it, or just doesn't.

mod runs;
mod tables;

use gilboreth_host::model::locks::{decode, encode, TABLE_BYTES};
use gilboreth_host::model::stripe::{decode_log, decode_map, run_at, LOG_BYTES, MAP_BYTES};
use gilboreth_host::model::table::Table;
use runs::runs;
use tables::{table, with, SOUND, UNSOUND};

#[test]
fn sound_tables() {
    for (name, changes) in SOUND {
        let bytes = with(table(), changes);
        assert!(decode(&bytes).is_some(), "{name}");
        assert!(encode(&decode(&bytes).unwrap()) == bytes, "{name}");
    }
    assert_eq!(decode(&[0; TABLE_BYTES]), Some(Table::default()));
}

#[test]
fn unsound_tables() {
    for (name, changes) in UNSOUND {
        assert_eq!(decode(&with(table(), changes)), None, "{name}");
    }
    assert_eq!(decode(&table()[..TABLE_BYTES - 1]), None);
    assert_eq!(decode(&[table(), vec![0]].concat()), None);
    assert_eq!(decode(&[]), None);
    assert!(!Table { issued: 4_294_967_296, ..Table::default() }.sound());
}

const EOF: u64 = 9_223_372_036_854_775_807;

#[test]
fn sound_maps() {
    let apart: Vec<_> = (0..1_024).map(|place| (2 * place, 2 * place, 1, 1)).collect();
    let touching: Vec<_> = (0..1_024).map(|place| (place, place, 1, 1 + place as u32)).collect();
    for list in [
        vec![],
        vec![(0, EOF, 4_294_967_295, 4_294_967_295)],
        vec![(EOF, EOF, 1, 1)],
        vec![(0, 4, 2, 1), (5, 9, 1, 1), (10, 10, 2, 1)],
        vec![(0, 4, 1, 2), (5, 9, 1, 1), (10, 10, 1, 2)],
        vec![(0, 4, 1, 2), (5, 9, 2, 1), (10, 10, 1, 2)],
        vec![(0, 4, 2, 2), (6, 9, 2, 2)],
        apart,
        touching,
    ] {
        let map = decode_map(&runs(MAP_BYTES, &list));
        assert_eq!(map.map(|runs| runs.len()), Some(list.len()), "{list:?}");
    }
}

#[test]
fn unsound_maps() {
    for list in [
        vec![(0, 4, 0, 0)],
        vec![(0, 4, 0, 1)],
        vec![(0, 4, 1, 0)],
        vec![(0, 4, 1, 1), (5, 9, 1, 0)],
        vec![(5, 4, 1, 1)],
        vec![(0, EOF + 1, 1, 1)],
        vec![(u64::MAX, u64::MAX, 1, 1)],
        vec![(6, 9, 1, 1), (0, 4, 1, 1)],
        vec![(0, 4, 1, 1), (4, 9, 2, 1)],
        vec![(0, 4, 1, 1), (4, 9, 1, 2)],
        vec![(0, 9, 1, 1), (3, 4, 2, 2)],
        vec![(0, 4, 1, 1), (5, 9, 1, 1)],
        vec![(0, 4, 2, 3), (5, 9, 2, 3)],
        vec![(0, 4, 1, 1), (0, 4, 1, 1)],
    ] {
        assert_eq!(decode_map(&runs(MAP_BYTES, &list)), None, "{list:?}");
    }
    let map = runs(MAP_BYTES, &[(0, 4, 1, 1)]);
    assert_eq!(decode_map(&with(map.clone(), &[(0, 1_025)])), None);
    assert_eq!(decode_map(&with(map.clone(), &[(run_at(1), 0x0100_0000)])), None);
    assert_eq!(decode_map(&with(map.clone(), &[(MAP_BYTES - 4, 1)])), None);
    assert_eq!(decode_map(&map[..MAP_BYTES - 1]), None);
    assert_eq!(decode_map(&map[..20_484]), None);
    assert_eq!(decode_map(&[map, vec![0]].concat()), None);
}

/// Entries lie in any relation to each other, and anything follows them.
#[test]
fn sound_logs() {
    for list in [
        vec![],
        vec![(0, EOF, 4_294_967_295, 1), (EOF, EOF, 1, 4_294_967_295)],
        vec![(6, 9, 1, 1), (0, 4, 1, 1), (5, 5, 1, 2), (5, 7, 3, 1), (5, 7, 3, 1)],
        vec![(3, 3, 1, 1); 2_048],
    ] {
        let mut log = runs(LOG_BYTES, &list);
        log[run_at(list.len())..].fill(0xEE);
        let entries = decode_log(&log);
        assert_eq!(entries.map(|entries| entries.len()), Some(list.len()), "{list:?}");
    }
}

#[test]
fn unsound_logs() {
    for entry in [
        (0, 4, 0, 0),
        (0, 4, 0, 1),
        (0, 4, 1, 0),
        (5, 4, 1, 1),
        (0, EOF + 1, 1, 1),
        (u64::MAX, u64::MAX, 1, 1),
    ] {
        assert_eq!(decode_log(&runs(LOG_BYTES, &[(0, 4, 1, 1), entry])), None, "{entry:?}");
    }
    let log = runs(LOG_BYTES, &[(0, 4, 1, 1)]);
    assert_eq!(decode_log(&with(log.clone(), &[(0, 2)])), None);
    assert_eq!(decode_log(&with(runs(LOG_BYTES, &[(3, 3, 1, 1); 2_048]), &[(0, 2_049)])), None);
    assert_eq!(decode_log(&log[..LOG_BYTES - 1]), None);
    assert_eq!(decode_log(&log[..40_964]), None);
    assert_eq!(decode_log(&[log, vec![0]].concat()), None);
}

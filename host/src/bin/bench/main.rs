//! What the calls cost: the library beside the shipped Rust, on the same inputs in one run.

mod case;
mod search;

use case::{clock, head, micros, Case, ROUNDS};
use gilboreth_host::entries::Item;
use gilboreth_host::logs::kinds;
use gilboreth_host::model::list::LIST_EVENTS_BYTES;
use gilboreth_host::model::locks::{encode, EVENTS_BYTES};
use gilboreth_host::model::modes::{Mode, State};
use gilboreth_host::model::runs::{Age, Run, ENTRIES};
use gilboreth_host::model::stripe::{encode_log, encode_map, Piece, LOG_BYTES, MAP_BYTES};
use gilboreth_host::model::table::{Record, Table};
use gilboreth_host::model::EOF;
use std::cell::RefCell;
use std::time::Duration;

/// Progress goes to stderr, the table to stdout. With `search SECONDS` it looks for the worst restart.
fn main() {
    let words: Vec<String> = std::env::args().skip(1).collect();
    let seconds = words.get(1).and_then(|seconds| seconds.parse().ok());
    match (words.first().map(String::as_str), seconds) {
        (None, _) => measure(),
        (Some("search"), Some(seconds)) => search::search(Duration::from_secs(seconds)),
        _ => {
            eprintln!("usage: bench [search SECONDS]");
            std::process::exit(2);
        }
    }
}

fn measure() {
    println!("Microseconds a call. {} A * marks what misses its bound.", measured());
    println!();
    head(&["memcpy", "of memcpy", "GB/s"]);
    notes();
    writes();
    restarts();
    compactions();
    requests();
    acknowledge();
    println!();
    head(&["singles", "of them"]);
    lists();
    eprintln!(
        "Each time is a median over {ROUNDS} rounds, less the clock's own {:.3} µs.",
        micros(clock())
    );
}

/// Which library was measured. tools/bench sees to it that none runs under an emulator.
fn measured() -> &'static str {
    match std::env::consts::ARCH {
        "aarch64" => "Measured on Arm: the same proved module, compiled for Arm.",
        _ => "Measured on x86-64: the proved library, as C links it.",
    }
}

/// Runs of three bytes with number 5 and two bytes between.
fn apart(count: u64) -> Vec<Run> {
    (0..count).map(|place| Run::new(5 * place, 5 * place + 2, 5, 1)).collect()
}

/// A piece in the middle that meets two runs, with a log of as many entries: of the next number, or of the
/// next pass.
fn notes() {
    for (count, (number, pass), which) in [
        (0, (6, 1), ""),
        (100, (6, 1), ""),
        (1_000, (6, 1), ""),
        (1_000, (5, 2), ", of a later pass"),
    ] {
        let runs = apart(count);
        let piece = Piece::new(5 * (count / 2) + 1, 6, number, pass);
        Case {
            name: format!("note at {count} runs{which}"),
            buffers: [encode_map(&runs), encode_log(&runs)],
            call: &|calls, map, log| (calls.note)(map, log, piece, 10_000),
        }
        .row();
    }
}

/// A piece in the middle of the image. Over 1,000 runs, every other one has its age; the others have the
/// next number, or the next pass.
fn writes() {
    for (length, name) in [(4_096, "4 KiB"), (1_048_576, "1 MiB")] {
        for (count, (number, pass), which) in [
            (1, (5, 1), ""),
            (1_000, (6, 1), "s, half of it stored"),
            (1_000, (5, 2), "s, half by its pass"),
        ] {
            let border = |place: u64| 100 + length * place / count;
            let age = |place| [Age::new(5, 1), Age::new(number, pass)][(place % 2) as usize];
            let run =
                |place| Run { first: border(place), last: border(place + 1) - 1, age: age(place) };
            let runs: Vec<Run> = (0..count).map(run).collect();
            let piece = vec![0xEE; length as usize];
            let wanted = if length > 4_096 && count == 1 { 0.8 } else { 0.0 };
            Case {
                name: format!("write of {name} over {count} run{which}"),
                buffers: [encode_map(&runs), vec![0; length as usize + 200]],
                call: &|calls, map, image| (calls.write)(map, image, Piece::new(100, &piece, 5, 1)),
            }
            .row_beside_memcpy(length, wanted);
        }
    }
}

/// Full logs of every kind.
fn restarts() {
    for (name, entries) in kinds(ENTRIES as u64) {
        Case {
            name: format!("restart, {name}"),
            buffers: [vec![0; MAP_BYTES], encode_log(&entries)],
            call: &|calls, map, log| (calls.restart)(map, log),
        }
        .row_within(Duration::from_micros(500));
    }
}

/// The same logs, into a buffer that held anything.
fn compactions() {
    for (name, entries) in kinds(ENTRIES as u64) {
        Case {
            name: format!("compact, {name}"),
            buffers: [encode_log(&entries), vec![0xEE; LOG_BYTES]],
            call: &|calls, old_log, new_log| (calls.compact)(old_log, new_log),
        }
        .row_within(Duration::from_micros(500));
    }
}

/// A table of so many records on stripe 0, with handles and numbers from 1.
fn table(count: u64, record: impl Fn(Record) -> Record) -> Vec<u8> {
    let plain = |handle| Record {
        handle,
        client: 0,
        stripe: 0,
        mode: Mode::NBW,
        state: State::Granted,
        number: handle,
        first: 0,
        last: 9,
        marked: false,
    };
    let records = (1..=count).map(plain).map(record).collect();
    let mut table = Table { issued: 2 * count, records, ..Table::default() };
    table.numbers = [count; 16];
    encode(&table)
}

/// A request for NBW on the bytes 0 to 9 of stripe 0, beside locks that it doesn't meet or among
/// records that it meets.
fn requests() {
    let row = |name: String, table: Vec<u8>| {
        Case {
            name,
            buffers: [table, vec![0; EVENTS_BYTES]],
            call: &|calls, table, events| (calls.request)(table, events, 1, 0, 2, 0, 9).refusal,
        }
        .row();
    };
    let far = |r: Record| Record { first: 100 * r.handle, last: 100 * r.handle + 9, ..r };
    for count in [1, 50, 200, 250] {
        row(format!("request beside {count} held, one stripe"), table(count, far));
    }
    for count in [1, 50, 200, 250] {
        let striped = table(count, |r| Record { stripe: r.handle % 16, ..far(r) });
        row(format!("request beside {count} held, 16 stripes"), striped);
    }
    for count in [1, 50, 125, 200, 250] {
        let canceling = table(count, |r| Record { state: State::Canceling, ..r });
        row(format!("request among {count} canceling NBW"), canceling);
    }
    for count in [1, 50, 200, 250, 254] {
        row(format!("request after one held and {count} waiting"), waiting(count));
    }
    // No session leaves such a table, but it is sound: the call settles all of it.
    let unsettled = table(255, |r| Record { state: State::Waiting, number: 0, ..r });
    row("request after 255 waiting, which settles them".to_string(), unsettled);
}

/// One NBW over all bytes, asked, and after it so many requests that wait.
fn waiting(count: u64) -> Vec<u8> {
    table(1 + count, |r| match r.handle {
        1 => Record { state: State::Asked, last: EOF, ..r },
        _ => Record { state: State::Waiting, number: 0, ..r },
    })
}

fn acknowledge() {
    Case {
        name: "acknowledge that settles 200 waiters".to_string(),
        buffers: [waiting(200), vec![0; EVENTS_BYTES]],
        call: &|calls, table, events| (calls.acknowledge)(table, events, 0, 1).refusal,
    }
    .row();
}

/// A list for NBW on bytes that nobody holds, beside locks of the stripe. All items are granted, and so
/// are the same requests one by one: each is widened up to the one before it, as they come in falling order.
fn lists() {
    let far = |r: Record| Record { first: 100 * r.handle, last: 100 * r.handle + 9, ..r };
    for records in [0, 100, 190] {
        for count in [1, 8, 64] {
            let ask = |place: u64| Item::new(1, 0, Mode::NBW as u64, place, place + 9);
            let items: Vec<Item> =
                (0..count).rev().map(|place| ask(1_000_000 + 100 * place)).collect();
            let items = RefCell::new(items);
            let plural = if count == 1 { "" } else { "s" };
            Case {
                name: format!("list of {count} item{plural} beside {records} held, one stripe"),
                buffers: [table(records, far), vec![0; LIST_EVENTS_BYTES]],
                call: &|calls, table, events| {
                    let items = &mut *items.borrow_mut();
                    let answer = (calls.request_list)(table, events, items);
                    items.iter().fold(answer.refusal, |refusals, item| refusals | item.refusal)
                },
            }
            .row_beside_singles(if count == 64 { 1.0 / 3.0 } else { f64::INFINITY });
        }
    }
}

//! Transcripts: one call to a line. First the message as the line program reads it,
//! then the answer and the events that must come back, with spaces between.
//! Lines with `I` in place of `R` that follow each other are the items of one list.

use crate::both::serve;
use crate::piped::written;
use gilboreth_host::beside::Beside;
use gilboreth_host::calls::LIBRARY;
use gilboreth_host::entries::Item;
use gilboreth_host::model::line::line;
use gilboreth_host::model::list::LIST_EVENTS_BYTES;
use gilboreth_host::model::locks::{event_at, Answer, EVENTS_BYTES, EVENT_BYTES, TABLE_BYTES};
use gilboreth_host::model::serve::Message;

/// Plays a transcript from the empty table, and answers the table's bytes at its end.
/// The line program must give the same lines, the model's and the one that was proved and built.
pub fn play(transcript: &str) -> Vec<u8> {
    let mut table = vec![0; TABLE_BYTES];
    play_on(&mut table, transcript);
    let (mut input, mut output) = (String::new(), String::new());
    for call in calls(transcript) {
        input += &format!("{}\n", call[0]);
        output += &call[1..].iter().map(|line| format!("{line}\r\n")).collect::<String>();
    }
    assert_eq!(String::from_utf8(line(input.as_bytes())).unwrap(), output);
    assert_eq!(String::from_utf8(written(input.as_bytes())).unwrap(), output);
    table
}

/// Plays a transcript on a table, through the entries on bytes: the library's and the model's.
pub fn play_on(table: &mut [u8], transcript: &str) {
    let calls = calls(transcript);
    let is_item = |call: &[String]| call[0].starts_with('I');
    let mut rest = &calls[..];
    while !rest.is_empty() {
        let items = rest.iter().take_while(|call| is_item(call)).count();
        let (now, later) = rest.split_at(items.max(1));
        if items > 0 {
            let asked: Vec<&str> = now.iter().map(|call| call[0].as_str()).collect();
            for (call, answer) in now.iter().zip(listed(table, &asked)) {
                assert_eq!(answer, call[1..], "{}", call[0]);
            }
        } else {
            assert_eq!(served(table, &now[0][0]), now[0][1..], "{}", now[0][0]);
        }
        rest = later;
    }
}

fn calls(transcript: &str) -> Vec<Vec<String>> {
    let text = transcript.replace("EOF", "9223372036854775807");
    let words = |call: &str| call.split_whitespace().map(str::to_string).collect::<Vec<_>>();
    text.lines().map(words).filter(|call| !call.is_empty()).collect()
}

fn numbers(fields: &str) -> Vec<u64> {
    fields.split(',').map(|field| field.parse().unwrap()).collect()
}

/// The answers of a list's items, each with its events, read from items and event buffer by hand.
/// A list changes no byte after its events; where no item is accepted, it changes no byte of the table.
fn listed(table: &mut [u8], asked: &[&str]) -> Vec<Vec<String>> {
    let item = |asked: &&str| match numbers(asked.strip_prefix("I,").unwrap()).as_slice() {
        &[client, stripe, mode, first, last] => {
            Item { client, stripe, mode, first, last, refusal: 99, handle: 99, events: 99 }
        }
        _ => panic!("no such item: {asked}"),
    };
    let mut items: Vec<Item> = asked.iter().map(item).collect();
    let mut buffer = vec![0xEE; LIST_EVENTS_BYTES + 5];
    let old_table = table.to_vec();
    let all = Beside::new(LIBRARY).list(table, &mut buffer, &mut items);
    let events: u64 = items.iter().map(|item| item.events).sum();
    assert_eq!(all, Answer { refusal: 0, handle: 0, events });
    assert_eq!(buffer[..4], (events as u32).to_be_bytes());
    assert!(buffer[event_at(events as usize)..].iter().all(|&byte| byte == 0xEE));
    if items.iter().all(|item| item.refusal != 0) {
        assert!(table == old_table);
    }
    let mut lines = buffer[4..].chunks(EVENT_BYTES).take(events as usize).map(event);
    let mut answer = |item: &Item| {
        let mut answer = vec![format!("=,{},{}", item.refusal, item.handle)];
        answer.extend(lines.by_ref().take(item.events as usize));
        answer
    };
    items.iter().map(&mut answer).collect()
}

/// The answer and the events of one message, read from the event buffer by hand.
/// A refused message changes no byte; an accepted one changes none after its events.
fn served(table: &mut [u8], message: &str) -> Vec<String> {
    let (letter, fields) = message.split_once(',').unwrap();
    let n = numbers(fields);
    let mut buffer = vec![0xEE; EVENTS_BYTES + 5];
    let (old_table, old_buffer) = (table.to_vec(), buffer.clone());
    let message = match (letter, n.as_slice()) {
        ("R", &[client, stripe, mode, first, last]) => {
            Message::Request { client, stripe, mode, first, last }
        }
        ("A", &[client, handle]) => Message::Acknowledge { client, handle },
        ("D", &[client, handle]) => Message::Downgrade { client, handle },
        ("F", &[client, handle]) => Message::Release { client, handle },
        _ => panic!("no such message: {message}"),
    };
    let Answer { refusal, handle, events } = serve(table, &mut buffer, message);
    let mut lines = vec![format!("=,{refusal},{handle}")];
    if refusal == 0 {
        let end = event_at(events as usize);
        assert_eq!(buffer[..4], (events as u32).to_be_bytes());
        assert_eq!(buffer[end..], old_buffer[end..]);
        lines.extend(buffer[4..end].chunks(EVENT_BYTES).map(event));
    } else {
        assert_eq!(events, 0);
        assert!(table == old_table && buffer == old_buffer);
    }
    lines
}

/// One event as the line program writes it: its kind, and then its record, six integers and two hypers.
fn event(bytes: &[u8]) -> String {
    let integer =
        |bytes: &[u8], at: usize| u32::from_be_bytes(bytes[at..at + 4].try_into().unwrap());
    let letter = match integer(bytes, 0) {
        1 => 'G',
        2 => 'V',
        kind => panic!("no such kind: {kind}"),
    };
    let record = &bytes[4..];
    let hyper = |at: usize| u64::from_be_bytes(record[at..at + 8].try_into().unwrap());
    let integers: String = (0..6).map(|place| format!(",{}", integer(record, 4 * place))).collect();
    format!("{letter}{integers},{},{}", hyper(24), hyper(32))
}

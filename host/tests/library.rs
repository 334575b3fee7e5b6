//! The library with its types beside the model: the same answers, events, records and runs.

mod messages;

use gilboreth_host::ages::Ages;
use gilboreth_host::model::list::LIST_EVENTS_BYTES;
use gilboreth_host::model::locks::{decode, record_at, EVENTS_BYTES, TABLE_BYTES};
use gilboreth_host::model::serve::{serve, serve_marked, Message};
use gilboreth_host::model::stripe::{decode_log, decode_map, LOG_BYTES, MAP_BYTES};
use gilboreth_host::model::{self, modes, runs, stripe, table};
use gilboreth_host::random::{for_seeds, Random};
use gilboreth_host::{
    Age, Answer, Event, EventBuffer, Handle, Item, Kind, ListEventBuffer, Log, Map, Mode, Number,
    Pass, Piece, Record, Refusal, Run, State, Table, EOF,
};
use messages::{crowded, message};

#[test]
fn sizes() {
    assert_eq!((Table::BYTES, EventBuffer::BYTES), (11_336, 11_268));
    assert_eq!((ListEventBuffer::BYTES, LIST_EVENTS_BYTES), (22_532, 22_532));
    assert_eq!((Map::BYTES, Log::BYTES), (24_580, 49_156));
    assert_eq!((TABLE_BYTES, EVENTS_BYTES), (Table::BYTES, EventBuffer::BYTES));
    assert_eq!((MAP_BYTES, LOG_BYTES), (Map::BYTES, Log::BYTES));
    assert_eq!(EOF, model::EOF);
}

#[test]
fn refusals() {
    for (number, refusal) in (1..).zip(Refusal::ALL) {
        assert_eq!(refusal.number(), number);
        assert_eq!(Refusal::of_number(number), Some(refusal));
        let text = refusal.text();
        assert!(text.contains(": ") && text.ends_with('.') && !text.contains("  "), "{text}");
        assert_eq!(refusal.to_string(), format!("refusal {number}. {text}"));
    }
    assert_eq!((Refusal::of_number(0), Refusal::of_number(20)), (None, None));
}

fn record(r: &table::Record) -> Record {
    Record {
        handle: Handle(r.handle),
        client: r.client,
        stripe: r.stripe,
        mode: match r.mode {
            modes::Mode::PR => Mode::PR,
            modes::Mode::NBW => Mode::NBW,
            modes::Mode::BW => Mode::BW,
            modes::Mode::PW => Mode::PW,
        },
        state: match r.state {
            modes::State::Waiting => State::Waiting,
            modes::State::Granted => State::Granted,
            modes::State::Asked => State::Asked,
            modes::State::Canceling => State::Canceling,
        },
        number: Number(r.number),
        first: r.first,
        last: r.last,
    }
}

fn event(e: &model::serve::Event) -> Event {
    let kind = match e.kind {
        model::serve::Kind::Grant => Kind::Grant,
        model::serve::Kind::Revocation => Kind::Revocation,
    };
    Event { kind, record: record(&e.record) }
}

fn send<'e>(
    table: &mut Table,
    events: &'e mut EventBuffer,
    message: Message,
) -> Result<Answer<'e>, Refusal> {
    match message {
        Message::Request { client, stripe, mode, first, last } => {
            table.request(events, client, stripe, mode, first, last)
        }
        Message::Acknowledge { client, handle } => {
            table.acknowledge(events, client, Handle(handle))
        }
        Message::Downgrade { client, handle } => table.downgrade(events, client, Handle(handle)),
        Message::Release { client, handle } => table.release(events, client, Handle(handle)),
    }
}

#[test]
fn sessions() {
    for_seeds(0..20, |random| {
        let (mut table, mut events) = (Table::new(), EventBuffer::new());
        let mut model = table::Table::default();
        for _ in 0..200 {
            let mut message = message(&model, random, 4);
            if let (Message::Request { mode, .. }, true) = (&mut message, random.once_in(9)) {
                *mode = 5;
            }
            let old = table.clone();
            match (send(&mut table, &mut events, message), serve(&mut model, message)) {
                (Ok(answer), Ok(accepted)) => {
                    assert_eq!(answer.handle, Handle(accepted.handle));
                    assert_eq!(answer.events.len(), accepted.events.len());
                    assert!(answer.events.eq(accepted.events.iter().map(event)));
                }
                (Err(refusal), Err(number)) => {
                    assert_eq!(refusal.number(), number);
                    assert!(table == old);
                }
                (answer, expected) => panic!("{message:?}: {answer:?}, by the model {expected:?}"),
            }
            assert!(table.records().eq(model.records.iter().map(record)));
            assert_eq!(table.issued(), model.issued);
            let numbers: [u64; 16] = std::array::from_fn(|stripe| table.last_number(stripe).0);
            assert_eq!(numbers, model.numbers);
        }
    });
}

/// Lists of any length among releases: answers, events and records are the model's.
#[test]
fn lists() {
    for_seeds(0..20, |random| {
        let (mut table, mut events) = (Table::new(), EventBuffer::new());
        let mut list_events = ListEventBuffer::new();
        let mut model = table::Table::default();
        for _ in 0..40 {
            let count = random.pick(&[0, 1, 3, 8, 64, 65]);
            let ask = |_| {
                let [client, stripe, mode, first, last] = crowded(random);
                let mode = if random.once_in(9) { 5 } else { mode };
                Item::new(client, stripe, mode, first, last)
            };
            let mut items: Vec<Item> = (0..count).map(ask).collect();
            let (old_table, old_items) = (table.clone(), items.clone());
            let listed = table.request_list(&mut list_events, &mut items);
            if count > 64 {
                assert_eq!(listed.err(), Some(Refusal::Items));
                assert!(table == old_table && items == old_items);
                continue;
            }
            let mut told = listed.unwrap();
            for (item, asked) in items.iter().zip(old_items) {
                let Item { client, stripe, mode, first, last, .. } = asked;
                match serve_marked(&mut model, client, stripe, mode, first, last) {
                    Ok(accepted) => {
                        assert_eq!(item.answered(), Some(Ok(Handle(accepted.handle))));
                        assert_eq!(item.events, accepted.events.len() as u64);
                        let own: Vec<Event> = told.by_ref().take(item.events as usize).collect();
                        assert!(own.iter().copied().eq(accepted.events.iter().map(event)));
                    }
                    Err(number) => {
                        assert_eq!(item.answered().unwrap().unwrap_err().number(), number);
                        assert_eq!((item.handle, item.events), (0, 0));
                    }
                }
                assert_eq!(Item { refusal: 0, handle: 0, events: 0, ..*item }, asked);
            }
            assert_eq!(told.len(), 0);
            while model.records.len() > 100 {
                let record = random.pick(&model.records);
                let release = Message::Release { client: record.client, handle: record.handle };
                send(&mut table, &mut events, release).unwrap();
                serve(&mut model, release).unwrap();
            }
            assert!(table.records().eq(model.records.iter().map(record)));
        }
    });
}

fn typed(age: runs::Age) -> Age {
    Age { number: Number(age.number), pass: Pass(age.pass) }
}

fn run(r: &runs::Run) -> Run {
    let Age { number, pass } = typed(r.age);
    Run { first: r.first, last: r.last, number, pass }
}

fn piece<B>(p: stripe::Piece<B>) -> Piece<B> {
    let Age { number, pass } = typed(p.age);
    Piece { first: p.first, bytes: p.bytes, number, pass }
}

#[test]
fn stripes() {
    for_seeds(0..50, |random| {
        let (mut map, mut log) = (Map::new(), Log::new());
        let (mut model_map, mut model_log) = (vec![0; MAP_BYTES], vec![0; LOG_BYTES]);
        let mut image = [0; 40];
        let ages = Ages::few(random);
        for _ in 0..60 {
            let (first, length) = (random.below(40), random.below(12));
            let refused = random.once_in(8);
            let age = if refused { ages.draw_refused(random) } else { ages.draw(random) };
            let old = image;
            let (answered, expected) = match random.below(10) {
                0..=3 => {
                    let outline = stripe::Piece { first, bytes: length, age };
                    let expected = stripe::note(&mut model_map, &mut model_log, outline, 40);
                    (map.note(&mut log, piece(outline), 40), expected)
                }
                4..=7 => {
                    let bytes = vec![random.draw() as u8; length as usize];
                    let whole = stripe::Piece { first, bytes: &bytes[..], age };
                    let mut model_image = old;
                    let expected = stripe::write(&model_map, &mut model_image, whole);
                    let written = map.write(&mut image, piece(whole));
                    assert_eq!(image, model_image);
                    (written, expected)
                }
                8 => {
                    random.fill(map.bytes_mut());
                    (map.restart(&log), stripe::restart(&mut model_map, &model_log))
                }
                _ => {
                    let (mut new, mut model_new) =
                        (Log::from([0xEE; LOG_BYTES]), vec![0; LOG_BYTES]);
                    let answered = log.compact(&mut new);
                    let expected = stripe::compact(&model_log, &mut model_new);
                    (log, model_log) = (new, model_new);
                    (answered, expected)
                }
            };
            assert_eq!(answered.err().map_or(0, Refusal::number), expected);
            assert!(map.bytes()[..] == model_map && log.bytes()[..] == model_log);
            let runs = decode_map(&model_map).unwrap();
            assert!(map.runs().eq(runs.iter().map(run)));
            assert!(log.entries().eq(decode_log(&model_log).unwrap().iter().map(run)));
            assert_eq!(log.notes_that_fit(), 2_048 - log.entries().len());
            assert_eq!(map.pieces_that_fit(), 512 - runs.len());
            for byte in 0..45 {
                let over = runs.iter().find(|run| run.first <= byte && byte <= run.last);
                let expected = over.map_or(runs::Age::NONE, |run| run.age);
                assert_eq!(map.age_at(byte), typed(expected));
            }
        }
    });
}

const PIECE: Piece<&[u8]> = Piece { first: 0, bytes: b"A", number: Number(1), pass: Pass(1) };

/// Any bytes can be looked at. The entries refuse those that aren't sound, and leave them.
#[test]
fn bytes_that_are_not_sound() {
    let mut random = Random::new(0);
    for _ in 0..20 {
        let (mut table, mut map, mut log) = (Table::new(), Map::new(), Log::new());
        random.fill(table.bytes_mut());
        random.fill(map.bytes_mut());
        random.fill(log.bytes_mut());
        assert!(decode(table.bytes()).is_none());
        assert!(table.records().count() <= 256);
        assert_eq!((map.runs().len(), log.entries().len()), (1_024, 2_048));
        assert_eq!((map.pieces_that_fit(), log.notes_that_fit()), (0, 0));
        assert!(!format!("{table:?} {map:?} {log:?}").is_empty());

        let (old_table, old_map, old_log) = (table.clone(), map.clone(), log.clone());
        let mut events = EventBuffer::new();
        let answer = table.release(&mut events, 0, Handle(1));
        assert_eq!(answer.err(), Some(Refusal::Table));
        let mut items = [Item::new(0, 0, Mode::PR, 0, 9)];
        let mut events = ListEventBuffer::new();
        let listed = table.request_list(&mut events, &mut items);
        assert_eq!(listed.err(), Some(Refusal::Table));
        assert_eq!(items, [Item::new(0, 0, Mode::PR, 0, 9)]);
        assert_eq!(map.note(&mut log, PIECE.outline(), 1), Err(Refusal::Map));
        assert_eq!(Map::new().note(&mut log, PIECE.outline(), 1), Err(Refusal::Log));
        assert_eq!(map.write(&mut [0], PIECE), Err(Refusal::Map));
        assert_eq!(map.restart(&log), Err(Refusal::Log));
        let mut new = Log::new();
        assert_eq!(log.compact(&mut new), Err(Refusal::Log));
        assert!(new == Log::new());
        assert_eq!(new.compact(&mut log.clone()), Ok(()));
        assert!(table == old_table && map == old_map && log == old_log);
    }
}

/// The first record whose mode has no meaning ends the records.
#[test]
fn records_without_meaning() {
    let (mut table, mut events) = (Table::new(), EventBuffer::new());
    for _ in 0..3 {
        table.request(&mut events, 0, 0, Mode::PR, 0, 9).unwrap();
    }
    assert_eq!(table.records().count(), 3);
    table.bytes_mut()[record_at(1) + 15] = 5;
    assert_eq!(table.records().count(), 1);
}

/// A buffer of the caller's own is used where it stands.
#[test]
fn over_the_callers_bytes() {
    let (mut map, mut log) = ([0; MAP_BYTES], [0; LOG_BYTES]);
    let piece = Piece { first: 2, bytes: 3, number: Number(7), pass: Pass(8) };
    Map::over(&mut map).note(Log::over(&mut log), piece, 10).unwrap();
    let mut again = Map::new();
    again.restart(&Log::from(log)).unwrap();
    assert!(again.bytes() == &map);
    assert!(log[Log::COUNT] == [0, 0, 0, 1]);
    let (range, age) = ([0, 0, 0, 0, 0, 0, 0, 2, 0, 0, 0, 0, 0, 0, 0, 4], [0, 0, 0, 7, 0, 0, 0, 8]);
    assert!(log[Log::entry(0)] == [&range[..], &age].concat());
}

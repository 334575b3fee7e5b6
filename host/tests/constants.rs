//! The numbers of the documents as the proved code has them, beside those of the C header, the model and
//! the library. They are read from the `const` lines of crates/ and the `#define` lines of the header.

use gilboreth_host::model::{self, list, locks, modes, runs, serve, stripe, table};
use gilboreth_host::{
    EventBuffer, Kind, ListEventBuffer, Log, Map, Mode, Refusal, State, Table, EOF,
};
use std::collections::BTreeMap;
use std::fs::{read_dir, read_to_string};
use std::path::{Path, PathBuf};

/// What a name stands for, in each crate, or in the header, that defines it.
#[derive(Default)]
struct Constants(BTreeMap<String, BTreeMap<String, String>>);

impl Constants {
    fn define(&mut self, place: &str, name: &str, value: &str) {
        let places = self.0.entry(name.to_string()).or_default();
        places.insert(place.to_string(), value.to_string());
    }

    /// The value of a name at a place. A name that the place does not define is another's, which must
    /// not be two.
    fn value(&self, place: &str, name: &str) -> u64 {
        let places = self.0.get(name).unwrap_or_else(|| panic!("no constant has the name {name}"));
        let own = places.get_key_value(place);
        let (place, text) = own.unwrap_or_else(|| {
            assert_eq!(places.len(), 1, "{name} is defined by several crates");
            places.iter().next().unwrap()
        });
        let mut expression = Expression { constants: self, place, words: words(text) };
        let value = expression.sum();
        assert!(expression.words.is_empty(), "{place}: {name} = {text}");
        value
    }

    /// The value of the first of these names that is there, and each crate that defines it agrees.
    fn agreed(&self, names: &[&str]) -> u64 {
        let name = names.iter().find(|name| self.0.contains_key(**name));
        let name = name.unwrap_or_else(|| panic!("no constant has one of the names {names:?}"));
        let mut values = self.0[*name].keys().map(|place| self.value(place, name));
        let value = values.next().unwrap();
        assert!(values.all(|other| other == value), "{name} has different values");
        value
    }
}

/// Sums and products of numbers and names, with parentheses.
struct Expression<'a> {
    constants: &'a Constants,
    place: &'a str,
    words: Vec<String>,
}

impl Expression<'_> {
    fn takes(&mut self, word: &str) -> bool {
        let there = self.words.first().map(String::as_str) == Some(word);
        if there {
            self.words.remove(0);
        }
        there
    }

    fn sum(&mut self) -> u64 {
        let mut value = self.product();
        loop {
            if self.takes("+") {
                value += self.product();
            } else if self.takes("-") {
                value -= self.product();
            } else {
                return value;
            }
        }
    }

    fn product(&mut self) -> u64 {
        let mut value = self.factor();
        loop {
            if self.takes("*") {
                value *= self.factor();
            } else if self.takes("/") {
                value /= self.factor();
            } else if self.takes("as") {
                self.words.remove(0); // the type
            } else {
                return value;
            }
        }
    }

    fn factor(&mut self) -> u64 {
        if self.takes("(") {
            let value = self.sum();
            assert!(self.takes(")"));
            return value;
        }
        let word = self.words.remove(0);
        if word.starts_with(|first: char| first.is_ascii_digit()) {
            let digits = word.replace('_', "");
            return digits.trim_end_matches(char::is_alphabetic).parse().expect(&word);
        }
        match word.rsplit_once("::") {
            Some((place, name)) => self.constants.value(place, name),
            None => self.constants.value(self.place, &word),
        }
    }
}

/// Numbers, names with their crate, and signs.
fn words(text: &str) -> Vec<String> {
    let spaced: String = text
        .chars()
        .map(|c| if "+-*/()".contains(c) { format!(" {c} ") } else { c.to_string() })
        .collect();
    spaced.split_whitespace().map(str::to_string).collect()
}

fn top() -> PathBuf {
    Path::new(env!("CARGO_MANIFEST_DIR")).join("..")
}

/// The constants of the crates, each a `const` line of its own.
fn proved() -> Constants {
    let mut constants = Constants::default();
    for place in read_dir(top().join("crates")).unwrap().map(|entry| entry.unwrap()) {
        for file in read_dir(place.path().join("src")).into_iter().flatten() {
            for line in read_to_string(file.unwrap().path()).unwrap().lines() {
                let line = line.strip_prefix("pub ").unwrap_or(line);
                let constant = line.strip_prefix("const ").and_then(|line| line.strip_suffix(';'));
                if let Some((typed, value)) = constant.and_then(|line| line.split_once(" = ")) {
                    let name = typed.split(':').next().unwrap();
                    constants.define(place.file_name().to_str().unwrap(), name, value);
                }
            }
        }
    }
    constants
}

fn header() -> Constants {
    let mut constants = Constants::default();
    for line in read_to_string(top().join("include/gilboreth.h")).unwrap().lines() {
        let line = line.split("/*").next().unwrap().replace("UINT64_C", "").replace("GIL_", "");
        if let Some((name, value)) = line.strip_prefix("#define ").and_then(|l| l.split_once(' ')) {
            constants.define("header", name, value);
        }
    }
    constants
}

/// A number: its names in the proved code, its name in the header, its value in the model and, where
/// the library has it, there.
type Row = (&'static [&'static str], &'static str, u64, Option<u64>);

const BYTES: [Row; 14] = [
    (&["TABLE_BYTES"], "TABLE_BYTES", locks::TABLE_BYTES as u64, Some(Table::BYTES as u64)),
    (
        &["EVENTS_BYTES"],
        "EVENTS_BYTES",
        locks::EVENTS_BYTES as u64,
        Some(EventBuffer::BYTES as u64),
    ),
    (
        &["LIST_EVENTS_BYTES"],
        "LIST_EVENTS_BYTES",
        list::LIST_EVENTS_BYTES as u64,
        Some(ListEventBuffer::BYTES as u64),
    ),
    (&["MAX_LIST_EVENTS"], "MAX_LIST_EVENTS", list::LIST_EVENTS as u64, None),
    (&["MAX_ITEMS"], "MAX_ITEMS", list::ITEMS as u64, None),
    (&["MAP_BYTES", "MAP_SIZE"], "MAP_BYTES", stripe::MAP_BYTES as u64, Some(Map::BYTES as u64)),
    (&["LOG_BYTES", "LOG_SIZE"], "LOG_BYTES", stripe::LOG_BYTES as u64, Some(Log::BYTES as u64)),
    (&["SHOWN_BYTES"], "BYTES_SHOWN", locks::SHOWN_BYTES as u64, None),
    (&["RECORD_BYTES"], "BYTES_PER_RECORD", locks::RECORD_BYTES as u64, None),
    (&["EVENT_BYTES"], "BYTES_PER_EVENT", locks::EVENT_BYTES as u64, None),
    (&["RUN_BYTES"], "BYTES_PER_RUN", stripe::RUN_BYTES as u64, None),
    (&["MAX_RECORDS"], "MAX_RECORDS", table::RECORDS as u64, None),
    (&["MAX_RUNS"], "MAX_RUNS", runs::RUNS as u64, None),
    (&["MAX_ENTRIES"], "MAX_ENTRIES", runs::ENTRIES as u64, None),
];

const CODES: [Row; 14] = [
    (&["EOF"], "EOF", model::EOF, Some(EOF)),
    (&["HIGHEST"], "HIGHEST", model::HIGHEST, None),
    (&["HIGHEST_PASS"], "HIGHEST_PASS", model::HIGHEST_PASS, None),
    (&["STRIPES"], "MAX_STRIPES", table::STRIPES as u64, None),
    (&["PR"], "MODE_PR", modes::Mode::PR as u64, Some(Mode::PR as u64)),
    (&["NBW"], "MODE_NBW", modes::Mode::NBW as u64, Some(Mode::NBW as u64)),
    (&["BW"], "MODE_BW", modes::Mode::BW as u64, Some(Mode::BW as u64)),
    (&["PW"], "MODE_PW", modes::Mode::PW as u64, Some(Mode::PW as u64)),
    (&["WAITING"], "STATE_WAITING", modes::State::Waiting as u64, Some(State::Waiting as u64)),
    (&["GRANTED"], "STATE_GRANTED", modes::State::Granted as u64, Some(State::Granted as u64)),
    (&["ASKED"], "STATE_ASKED", modes::State::Asked as u64, Some(State::Asked as u64)),
    (
        &["CANCELING"],
        "STATE_CANCELING",
        modes::State::Canceling as u64,
        Some(State::Canceling as u64),
    ),
    (&["GRANT"], "EVENT_GRANT", serve::Kind::Grant as u64, Some(Kind::Grant as u64)),
    (
        &["REVOCATION"],
        "EVENT_REVOCATION",
        serve::Kind::Revocation as u64,
        Some(Kind::Revocation as u64),
    ),
];

#[test]
fn the_same_numbers_everywhere() {
    let (proved, header) = (proved(), header());
    for (names, defined, model, library) in BYTES.into_iter().chain(CODES) {
        let value = proved.agreed(names);
        assert_eq!(header.value("header", defined), value, "GIL_{defined} and {names:?}");
        assert_eq!(model, value, "the model's and {names:?}");
        assert_eq!(library.unwrap_or(value), value, "the library's and {names:?}");
    }
    for (greatest, count, model) in [
        ("MAX_CLIENT", "MAX_CLIENTS", table::CLIENTS),
        ("MAX_STRIPE", "MAX_STRIPES", table::STRIPES as u64),
    ] {
        assert_eq!(proved.agreed(&[greatest]) + 1, model, "{greatest}");
        assert_eq!(header.value("header", count), model, "GIL_{count}");
    }
}

/// What the proved code gives no name to, or not yet: it follows from what it names.
#[test]
fn the_numbers_that_follow() {
    let (proved, header) = (proved(), header());
    assert_eq!(header.value("header", "MAX_EVENTS"), proved.agreed(&["MAX_RECORDS"]));
}

/// Each refusal has one number and one name in the header and in the library, and the model's number.
#[test]
fn refusals() {
    let header = header();
    let mut found = 0;
    for (name, number) in header.0.keys().filter_map(|name| {
        name.strip_prefix("REFUSED_").map(|short| (short, header.value("header", name)))
    }) {
        let refusal = Refusal::of_number(number).unwrap();
        let same = |letter: char| letter.to_ascii_lowercase();
        let short: String = name.chars().filter(|&letter| letter != '_').map(same).collect();
        assert_eq!(format!("{refusal:?}").to_ascii_lowercase(), short);
        found += 1;
    }
    assert_eq!(found, Refusal::ALL.len());
    use model::refusal::{CLIENT, EVENT_BUFFER, ITEMS, LOG, MAP, PIECE, RUNS, SMALLER, TABLE};
    for (refusal, number) in [
        (Refusal::EventBuffer, EVENT_BUFFER),
        (Refusal::Table, TABLE),
        (Refusal::Client, CLIENT),
        (Refusal::Map, MAP),
        (Refusal::Log, LOG),
        (Refusal::Piece, PIECE),
        (Refusal::Runs, RUNS),
        (Refusal::Smaller, SMALLER),
        (Refusal::Items, ITEMS),
    ] {
        assert_eq!(refusal.number(), number);
    }
}

/// The header and the Rust library are of one version.
#[test]
fn versions() {
    assert_eq!(header().0["VERSION"]["header"], format!("{:?}", env!("CARGO_PKG_VERSION")));
}

/// What the crates may write: sums and products of numbers and names, also of another crate.
#[test]
fn expressions() {
    let mut constants = Constants::default();
    constants.define("a", "COUNTER_BYTES", "4");
    constants.define("b", "RECORD_BYTES", "2 * COUNTER_BYTES + 4 * 4 + 2 * 8");
    constants.define("c", "TABLE_BYTES", "(1_000 + b::RECORD_BYTES) as usize / 2");
    assert_eq!(constants.value("b", "RECORD_BYTES"), 40);
    assert_eq!(constants.agreed(&["TABLE_SIZE", "TABLE_BYTES"]), 520);
}

//! One call measured: the library beside the shipped Rust.

use gilboreth_host::calls::{Calls, LIBRARY, SHIPPED};
use gilboreth_host::entries::Item;
use gilboreth_host::model::locks::Answer;
use gilboreth_host::model::stripe::Piece;
use std::time::{Duration, Instant};

pub const ROUNDS: usize = 25;
/// A round takes about as long.
const ROUND: Duration = Duration::from_millis(10);

/// A plain copy of the piece, as what a write can at best cost.
const MEMCPY: Calls = Calls { write: copy, ..SHIPPED };

fn copy(_: &[u8], image: &mut [u8], piece: Piece<&[u8]>) -> u64 {
    image[piece.first as usize..][..piece.bytes.len()].copy_from_slice(piece.bytes);
    0
}

/// As many single requests of the library, as what a list is to save.
const SINGLES: Calls = Calls { request_list: one_by_one, ..LIBRARY };

fn one_by_one(table: &mut [u8], events: &mut [u8], items: &mut [Item]) -> Answer {
    for item in items {
        let Item { client, stripe, mode, first, last, .. } = *item;
        let answer = (LIBRARY.request)(table, events, client, stripe, mode, first, last);
        (item.refusal, item.handle, item.events) = (answer.refusal, answer.handle, answer.events);
    }
    Answer { refusal: 0, handle: 0, events: 0 }
}

/// A call on two buffers, which answers a refusal number.
type Call<'a> = &'a dyn Fn(&Calls, &mut [u8], &mut [u8]) -> u64;

/// A call, and its buffers as they are before it. It is accepted.
pub struct Case<'a> {
    pub name: String,
    pub buffers: [Vec<u8>; 2],
    pub call: Call<'a>,
}

impl Case<'_> {
    /// One call on fresh buffers: its time, and what it leaves in them.
    fn time(&self, calls: &Calls, fresh: &mut [Vec<u8>; 2]) -> Duration {
        let [one, other] = fresh;
        one.copy_from_slice(&self.buffers[0]);
        other.copy_from_slice(&self.buffers[1]);
        let start = Instant::now();
        let answered = (self.call)(calls, one, other);
        let time = start.elapsed();
        assert_eq!(answered, 0, "{}", self.name);
        time
    }

    /// The median time of a call for each side; they take turns by rounds.
    fn medians<const N: usize>(&self, sides: [Calls; N]) -> [Duration; N] {
        let mut fresh = self.buffers.clone();
        let warm = Instant::now();
        let mut calls = 0;
        while calls < 3 || warm.elapsed() < ROUND {
            for side in &sides {
                self.time(side, &mut fresh);
            }
            calls += 1;
        }
        let mut times: [Vec<Duration>; N] = [(); N].map(|()| Vec::new());
        for _ in 0..ROUNDS {
            for (side, times) in sides.iter().zip(&mut times) {
                times.extend((0..calls).map(|_| self.time(side, &mut fresh)));
            }
        }
        let clock = clock();
        times.map(|times| median(times).saturating_sub(clock))
    }

    /// Measures the case and prints its row. Wanted is at most 2 times the Rust.
    pub fn row(&self) {
        self.begin();
        let [library, shipped] = self.medians([LIBRARY, SHIPPED]);
        self.print([library, shipped], library <= 2 * shipped, &["", "", ""].map(String::from));
    }

    /// The same where at most so long, and at most 3 times the Rust, is wanted.
    pub fn row_within(&self, wanted: Duration) {
        self.begin();
        let [library, shipped] = self.medians([LIBRARY, SHIPPED]);
        let as_wanted = library <= wanted && library <= 3 * shipped;
        self.print([library, shipped], as_wanted, &["", "", ""].map(String::from));
    }

    /// The same for a write of so many bytes, with memcpy beside. Wanted is at most 2 times the Rust,
    /// and at least so much of memcpy's speed.
    pub fn row_beside_memcpy(&self, bytes: u64, wanted: f64) {
        self.begin();
        let [library, shipped, memcpy] = self.medians([LIBRARY, SHIPPED, MEMCPY]);
        let speed = micros(memcpy) / micros(library);
        let rate = bytes as f64 / 1_000.0 / micros(library);
        let beside = [figure(memcpy), format!("{speed:.2}"), format!("{rate:.1}")];
        self.print([library, shipped], library <= 2 * shipped && speed >= wanted, &beside);
    }

    /// The same for a list, with as many single requests beside. Wanted is at most 2 times the Rust, and
    /// less than this part of the single requests.
    pub fn row_beside_singles(&self, wanted: f64) {
        self.begin();
        let [library, shipped, singles] = self.medians([LIBRARY, SHIPPED, SINGLES]);
        let part = micros(library) / micros(singles);
        let beside = [figure(singles), format!("{part:.2}")];
        self.print([library, shipped], library <= 2 * shipped && part < wanted, &beside);
    }

    fn begin(&self) {
        eprintln!("{}", self.name);
        self.agree();
    }

    fn print(&self, times: [Duration; 2], as_wanted: bool, beside: &[String]) {
        let ratio = micros(times[0]) / micros(times[1]);
        let mark = if as_wanted { ' ' } else { '*' };
        let ratio = format!("{ratio:.1} {mark}");
        let [library, shipped] = times.map(figure);
        let beside = beside.iter().map(String::as_str);
        line([&*self.name, &library, &shipped, &ratio].into_iter().chain(beside));
    }

    /// Both sides make the same of the buffers.
    fn agree(&self) {
        let left = [LIBRARY, SHIPPED].map(|side| {
            let mut fresh = self.buffers.clone();
            self.time(&side, &mut fresh);
            fresh
        });
        assert!(left[0] == left[1], "{}", self.name);
    }
}

/// The columns of the table, and the line below them. In Markdown the table stays one.
pub fn head(beside: &[&str]) {
    line(["call", "library", "Rust", "ratio  "].into_iter().chain(beside.iter().copied()));
    println!("|{:-<50}|{}", "", "----------:|".repeat(3 + beside.len()));
}

fn line<'a>(mut fields: impl Iterator<Item = &'a str>) {
    let name = fields.next().unwrap_or_default();
    let fields: String = fields.map(|field| format!(" {field:>9} |")).collect();
    println!("| {name:<48} |{fields}");
}

/// Microseconds, with two decimals as long as they say something.
fn figure(time: Duration) -> String {
    let micros = micros(time);
    if micros < 100.0 {
        format!("{micros:.2}")
    } else {
        format!("{micros:.0}")
    }
}

pub fn micros(time: Duration) -> f64 {
    time.as_nanos() as f64 / 1_000.0
}

fn median(mut times: Vec<Duration>) -> Duration {
    times.sort_unstable();
    times[times.len() / 2]
}

/// What the clock itself takes.
pub fn clock() -> Duration {
    median((0..1_001).map(|_| Instant::now().elapsed()).collect())
}

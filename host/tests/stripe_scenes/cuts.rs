//! Runs of one stripe: pieces noted and written in any order, again and again, with cuts, and with
//! compactions and turns to the new log.
//!
//! At the end each byte under a noted piece is that of the noted piece with the greatest age there, and
//! every other byte is as it began.

use super::{apart, drawn};
use gilboreth_host::ages::Ages;
use gilboreth_host::beside::Beside;
use gilboreth_host::model::runs::{Age, Run, ENTRIES, RUNS};
use gilboreth_host::model::stripe::{self, decode_log, decode_map, run_at, LOG_BYTES, MAP_BYTES};
use gilboreth_host::random::{for_seeds, Random};
use std::mem::swap;
use std::ops::{Range, RangeInclusive};

/// Few ages, so that many pieces share theirs and some are written without their own note.
pub fn crowded(beside: &mut Beside, seeds: Range<u64>) {
    for_seeds(seeds, |random| {
        let image_length = 1 + random.below(64);
        let ages = Ages::few(random);
        let runs = drawn(random, 10, image_length, 24, ages);
        Stripe::new(beside, random, ages, image_length).play(runs, 60);
    });
}

/// The same with compactions. A note makes what was compacted before it stale. A heedless daemon turns to
/// it all the same, which is wrong.
pub fn compacted(beside: &mut Beside, seeds: Range<u64>, heedless: bool) {
    let (played, mut turned) = (seeds.end - seeds.start, 0);
    for_seeds(seeds, |random| {
        let image_length = 1 + random.below(64);
        let ages = Ages::few(random);
        let runs = drawn(random, 10, image_length, 24, ages);
        let stripe = Stripe::new(beside, random, ages, image_length);
        let mut stripe = Stripe { compacts: true, heedless, ..stripe };
        stripe.play(runs, 90);
        turned += stripe.turned;
    });
    assert!(heedless || turned > 2 * played, "{turned} turns");
}

/// A run near 1,024 runs, where notes are refused with 16, and restarts and compactions are not.
pub fn at_the_limit_of_runs(beside: &mut Beside, seeds: Range<u64>) {
    for_seeds(seeds, |random| {
        let ages = Ages::up_to(3);
        let mut runs = drawn(random, 60, 2_100, 3, ages);
        let mut stripe = Stripe::new(beside, random, ages, 2_100);
        for run in apart(1_025, Age::new(2, 2)) {
            stripe.note(run, false);
        }
        assert_eq!(stripe.noted.len(), RUNS);
        runs.extend(&stripe.noted);
        stripe.compacts = true;
        stripe.play(runs, 300);
        assert!(stripe.turned > 3, "{} turns", stripe.turned);
    });
}

/// A run that fills its log, where notes are refused with 17 and restarts are not.
pub fn at_the_limit_of_entries(beside: &mut Beside, seeds: Range<u64>) {
    for_seeds(seeds, |random| {
        let ages = Ages::few(random);
        let runs = drawn(random, 20, 64, 24, ages);
        let mut stripe = Stripe::new(beside, random, ages, 64);
        while stripe.noted.len() < ENTRIES - 10 {
            let run = stripe.random.pick(&runs);
            stripe.note(run, false);
        }
        stripe.play(runs, 200);
        assert_eq!(stripe.noted.len(), ENTRIES);
    });
}

/// A run that fills its log, compacts it whenever it is full, and so is never refused with 17.
pub fn past_the_limit_of_entries(beside: &mut Beside, seeds: Range<u64>) {
    for_seeds(seeds, |random| {
        let ages = Ages::few(random);
        let runs = drawn(random, 20, 64, 24, ages);
        let mut stripe = Stripe::new(beside, random, ages, 64);
        while stripe.noted.len() < ENTRIES + 10 {
            if stripe.entries.len() == ENTRIES {
                stripe.compact(false);
                stripe.turn(false);
            }
            let run = stripe.random.pick(&runs);
            stripe.note(run, false);
        }
        stripe.compacts = true;
        stripe.play(runs, 200);
        assert!(stripe.turned > 3, "{} turns", stripe.turned);
    });
}

/// A piece, and how its last accepted write ended, if it had one.
struct Piece {
    run: Run,
    written: Option<Ending>,
}

#[derive(Clone, Copy, PartialEq)]
enum Ending {
    Whole,
    Cut,
}

fn places(run: &Run) -> RangeInclusive<usize> {
    run.first as usize..=run.last as usize
}

/// A stripe under test, with the test's own account of it beside.
struct Stripe<'a> {
    beside: &'a mut Beside,
    random: &'a mut Random,
    ages: Ages,
    map: Vec<u8>,
    log: Vec<u8>,
    image: Vec<u8>,
    /// The image as it began.
    began: Vec<u8>,
    /// What is noted, in note order, and the greatest age of each byte.
    noted: Vec<Run>,
    greatest: Vec<Age>,
    /// The entries of the log: those of its compaction, and then what was noted since.
    entries: Vec<Run>,
    /// The second buffer, and whether it has the new log that the stripe may turn to.
    second: Vec<u8>,
    compacted: bool,
    turned: u64,
    /// Whether compactions are among the steps, and whether a note between one and its turn is forgotten.
    compacts: bool,
    heedless: bool,
}

impl Stripe<'_> {
    fn new<'a>(
        beside: &'a mut Beside,
        random: &'a mut Random,
        ages: Ages,
        image_length: u64,
    ) -> Stripe<'a> {
        let mut image = vec![0; image_length as usize];
        random.fill(&mut image);
        Stripe {
            beside,
            random,
            ages,
            map: vec![0; MAP_BYTES],
            log: vec![0; LOG_BYTES],
            began: image.clone(),
            greatest: vec![Age::NONE; image.len()],
            image,
            noted: Vec::new(),
            entries: Vec::new(),
            second: vec![0xEE; LOG_BYTES],
            compacted: false,
            turned: 0,
            compacts: false,
            heedless: false,
        }
    }

    /// The byte that every piece of this age has at a place, so that they agree. At one place different
    /// ages have different bytes.
    fn byte(&self, age: Age, place: usize) -> u8 {
        (67 * self.ages.place(age) + place as u64) as u8
    }

    /// Notes a piece. A cut leaves the old log, or the new one if the note is accepted.
    fn note(&mut self, run: Run, cut: bool) {
        let mut raised = self.greatest.clone();
        for place in places(&run) {
            raised[place] = raised[place].max(run.age);
        }
        let expected = match (runs_of(&raised).len() > RUNS, self.entries.len() == ENTRIES) {
            (true, _) => 16,
            (false, true) => 17,
            (false, false) => 0,
        };
        let old_left = cut && (expected != 0 || self.random.once_in(2));
        if !old_left {
            let Run { first, last, age } = run;
            let piece = stripe::Piece { first, bytes: last - first + 1, age };
            let image_length = self.image.len() as u64;
            let mut new_log = self.log.clone();
            let (map, log) = (&mut self.map, &mut self.log);
            let answered = self.beside.note(map, log, piece, image_length);
            assert_eq!(answered, expected);
            if answered == 0 {
                let end = self.end_of_entries();
                new_log[end..end + 8].copy_from_slice(&first.to_be_bytes());
                new_log[end + 8..end + 16].copy_from_slice(&last.to_be_bytes());
                new_log[end + 16..end + 20].copy_from_slice(&(age.number as u32).to_be_bytes());
                new_log[end + 20..end + 24].copy_from_slice(&(age.pass as u32).to_be_bytes());
                self.noted.push(run);
                self.entries.push(run);
                self.greatest = raised;
                new_log[..4].copy_from_slice(&(self.entries.len() as u32).to_be_bytes());
                self.compacted &= self.heedless;
            }
            assert!(self.log == new_log);
        }
        if cut {
            self.scribble();
            self.cut();
        }
        self.check();
    }

    fn end_of_entries(&self) -> usize {
        run_at(self.entries.len())
    }

    /// After a cut note the bytes past the entries are anything.
    fn scribble(&mut self) {
        let end = self.end_of_entries();
        let reach = self.random.pick(&[3, 24, 60, LOG_BYTES]);
        self.random.fill(&mut self.log[end..LOG_BYTES.min(end + reach)]);
    }

    /// Writes a piece. A cut leaves anything at the places that the write would store.
    fn write(&mut self, piece: &mut Piece, cut: bool) {
        let run = piece.run;
        let bytes: Vec<u8> = places(&run).map(|place| self.byte(run.age, place)).collect();
        let refused = places(&run).any(|place| self.greatest[place] < run.age);
        let mut new_image = self.image.clone();
        for place in places(&run) {
            if !refused && self.greatest[place] == run.age {
                new_image[place] = match self.random.below(3) {
                    0 if cut => self.image[place],
                    1 if cut => self.random.draw() as u8,
                    _ => self.byte(run.age, place),
                };
            }
        }
        if cut {
            self.image = new_image;
            self.cut();
        } else {
            let piece = stripe::Piece { first: run.first, bytes: &bytes[..], age: run.age };
            let answered = self.beside.write(&self.map, &mut self.image, piece);
            assert_eq!(answered, if refused { 18 } else { 0 });
            assert!(self.image == new_image);
        }
        if !refused {
            piece.written = Some(if cut { Ending::Cut } else { Ending::Whole });
        }
        self.check();
    }

    /// Compacts the log. No compaction is refused. A cut leaves anything in the second buffer.
    fn compact(&mut self, cut: bool) {
        let runs = runs_of(&self.greatest);
        assert_eq!(self.beside.compact(&self.log, &mut self.second), 0);
        assert_eq!(decode_log(&self.second).unwrap(), runs);
        assert!(self.second[run_at(runs.len())..].iter().all(|&byte| byte == 0));
        self.compacted = true;
        if cut {
            self.lose();
            self.restart();
        }
        self.check();
    }

    /// What stands in the second buffer is of no use any more.
    fn lose(&mut self) {
        let lost = self.random.below(LOG_BYTES as u64) as usize;
        self.random.fill(&mut self.second[lost..]);
        self.compacted = false;
    }

    /// Turns to the new log by one store, if there is one. A cut finds either log.
    fn turn(&mut self, cut: bool) {
        if self.compacted && !(cut && self.random.once_in(2)) {
            swap(&mut self.log, &mut self.second);
            self.compacted = false;
            self.entries = runs_of(&self.greatest);
            self.turned += 1;
        }
        if cut {
            self.cut();
        }
        self.check();
    }

    /// A cut keeps the second buffer or loses it.
    fn cut(&mut self) {
        if self.compacted && self.random.once_in(2) {
            self.lose();
        }
        self.restart();
    }

    /// Any cut loses the map, also one in the restart itself. No restart is refused.
    fn restart(&mut self) {
        self.random.fill(&mut self.map);
        while self.random.once_in(4) {
            assert_eq!(self.beside.restart(&mut self.map, &self.log), 0);
            let lost = self.random.below(MAP_BYTES as u64) as usize;
            self.random.fill(&mut self.map[lost..]);
        }
        assert_eq!(self.beside.restart(&mut self.map, &self.log), 0);
    }

    /// The log has its entries, and each byte's age is the greatest that was noted over it.
    fn check(&self) {
        assert_eq!(decode_log(&self.log).unwrap(), self.entries);
        let mut ages = vec![Age::NONE; self.image.len()];
        for run in decode_map(&self.map).unwrap() {
            ages[places(&run)].fill(run.age);
        }
        assert_eq!(ages, self.greatest);
    }

    /// Notes and writes the pieces at random, and ends with each piece written to its end.
    fn play(&mut self, runs: Vec<Run>, steps: usize) {
        let mut pieces: Vec<_> = runs.iter().map(|&run| Piece { run, written: None }).collect();
        for _ in 0..steps {
            let place = self.random.below(pieces.len() as u64) as usize;
            let cut = self.random.once_in(4);
            let kinds = if self.compacts { 12 } else { 8 };
            match self.random.below(kinds) {
                0..=2 => self.note(pieces[place].run, cut),
                3..=6 => self.write(&mut pieces[place], cut),
                7 => self.restart(),
                8 | 9 => self.compact(cut),
                _ => self.turn(cut),
            }
        }
        let mut owed: Vec<&mut Piece> = pieces.iter_mut().filter(|p| self.owes(p)).collect();
        while !owed.is_empty() {
            let place = self.random.below(owed.len() as u64) as usize;
            let piece = owed.swap_remove(place);
            self.write(piece, false);
            assert!(piece.written == Some(Ending::Whole));
        }
        for (place, &age) in self.greatest.iter().enumerate() {
            let none = age == Age::NONE;
            let expected = if none { self.began[place] } else { self.byte(age, place) };
            assert_eq!(self.image[place], expected, "byte {place}");
        }
    }

    /// A piece must still be written if its last write was cut, or if it is noted and had none.
    fn owes(&self, piece: &Piece) -> bool {
        match piece.written {
            Some(ending) => ending == Ending::Cut,
            None => self.noted.contains(&piece.run),
        }
    }
}

/// The runs that these ages need: stretches of equal ages, without those that have none.
fn runs_of(ages: &[Age]) -> Vec<Run> {
    let mut runs: Vec<Run> = Vec::new();
    for (place, &age) in (0..).zip(ages) {
        match runs.last_mut() {
            Some(run) if run.last + 1 == place && run.age == age => run.last = place,
            _ if age == Age::NONE => {}
            _ => runs.push(Run { first: place, last: place, age }),
        }
    }
    runs
}

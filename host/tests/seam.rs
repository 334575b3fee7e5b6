//! The seam of both halves: a byte under two write grants of a stripe is at the end the later
//! grant's, and under two passes of one grant the later pass's, in whatever order the flushes arrive,
//! with cuts, restarts and compactions anywhere.

use gilboreth_host::random::{for_seeds, Random};
use gilboreth_host::{
    Age, Answer, Event, EventBuffer, Handle, Item, Kind, ListEventBuffer, Log, Map, Mode, Number,
    Pass, Piece, Record, Refusal, Table,
};
use std::ops::Range;
use std::panic::catch_unwind;

/// A stripe of a server: its map in memory, its log and image on disk.
struct Stripe {
    map: Map,
    log: Log,
    image: Vec<u8>,
    /// What the log was compacted to, with no note since: the log that the server may turn to.
    new_log: Option<Log>,
    turned: usize,
    wrong: Option<Wrong>,
}

/// What a wrong server does.
#[derive(Clone, Copy, PartialEq)]
enum Wrong {
    /// It turns to a log that was compacted before a note.
    Heedless,
    /// It notes and writes every piece in pass 1.
    OnePass,
}

impl Stripe {
    fn new(image: &[u8]) -> Stripe {
        let (map, log, image) = (Map::new(), Log::new(), image.to_vec());
        Stripe { map, log, image, new_log: None, turned: 0, wrong: None }
    }

    /// The piece as this server takes it.
    fn taken<'a>(&self, piece: Piece<&'a [u8]>) -> Piece<&'a [u8]> {
        let pass = if self.wrong == Some(Wrong::OnePass) { Pass(1) } else { piece.pass };
        Piece { pass, ..piece }
    }

    fn note(&mut self, piece: Piece<&[u8]>) -> Result<(), Refusal> {
        let outline = self.taken(piece).outline();
        let noted = self.map.note(&mut self.log, outline, self.image.len() as u64);
        if noted.is_ok() && self.wrong != Some(Wrong::Heedless) {
            self.new_log = None;
        }
        noted
    }

    /// No compaction is refused.
    fn compact(&mut self) {
        let mut new_log = Log::from([0xEE; Log::BYTES]);
        self.log.compact(&mut new_log).unwrap();
        self.new_log = Some(new_log);
    }

    /// Turns to the new log by one store, if there is one.
    fn turn(&mut self) {
        if let Some(new_log) = self.new_log.take() {
            self.log = new_log;
            self.turned += 1;
        }
    }

    fn write(&mut self, piece: Piece<&[u8]>) -> Result<(), Refusal> {
        let piece = self.taken(piece);
        self.map.write(&mut self.image, piece)
    }

    fn flush(&mut self, piece: Piece<&[u8]>) {
        self.note(piece).unwrap();
        self.write(piece).unwrap();
    }

    /// The server is cut and comes back. The map is lost, and no restart is refused.
    fn cut(&mut self) {
        self.map.bytes_mut().fill(0xEE);
        self.map.restart(&self.log).unwrap();
    }

    /// A cut in a note leaves the log as it was, with anything past its entries.
    fn cut_note_and_old_log(&mut self) {
        let end = Log::entry(self.log.entries().len()).start;
        self.log.bytes_mut()[end..].fill(0xEE);
        self.cut();
    }

    /// A cut in a note leaves the new log.
    fn cut_note_and_new_log(&mut self, piece: Piece<&[u8]>) {
        self.note(piece).unwrap();
        self.cut();
    }

    /// A cut in a write leaves anything at the places that it would store.
    fn cut_write(&mut self, piece: Piece<&[u8]>, mut left: impl FnMut() -> u8) {
        let age = self.taken(piece).age();
        let ages: Vec<Age> =
            (piece.first..).zip(piece.bytes).map(|(at, _)| self.map.age_at(at)).collect();
        if ages.iter().all(|&under| under >= age) {
            for (place, _) in ages.iter().enumerate().filter(|(_, &under)| under == age) {
                self.image[piece.first as usize + place] = left();
            }
        }
        self.cut();
    }
}

/// The only event of an accepted message is a grant; this is its number.
fn granted(answer: Result<Answer, Refusal>) -> Number {
    let events: Vec<_> = answer.unwrap().events.collect();
    assert_eq!((events.len(), events[0].kind), (1, Kind::Grant));
    events[0].record.number
}

/// Client 0 holds a stripe. Client 1 asks for the bytes 4 to 7 of it, and is granted them once
/// client 0 has acknowledged, which has not flushed yet.
fn two_grants() -> (Number, Number) {
    let (mut table, mut events) = (Table::new(), EventBuffer::new());
    let old = granted(table.request(&mut events, 0, 0, Mode::NBW, 0, 9));
    table.request(&mut events, 1, 0, Mode::NBW, 4, 7).unwrap();
    let later = granted(table.acknowledge(&mut events, 0, Handle(1)));
    (old, later)
}

/// An old flush of the whole stripe, and a later one of the bytes 4 to 7. Client 0 flushes and then
/// client 1, each in its first pass, or client 0 in its ninth; or client 0 flushes, keeps its lock and
/// writes these bytes again.
fn flushes() -> [[Piece<&'static [u8]>; 2]; 3] {
    let (old, later) = two_grants();
    let whole = |number, pass| Piece { first: 0, bytes: &b"OOOOOOOOOO"[..], number, pass };
    let part = |number, pass| Piece { first: 4, bytes: &b"LLLL"[..], number, pass };
    [
        [whole(old, Pass(1)), part(later, Pass(1))],
        [whole(old, Pass(9)), part(later, Pass(1))],
        [whole(old, Pass(1)), part(old, Pass(2))],
    ]
}

#[test]
fn the_old_flush_arrives_last() {
    for [old, later] in flushes() {
        let mut stripe = Stripe::new(b"..........");
        stripe.flush(later);
        stripe.flush(old);
        assert_eq!(stripe.image, b"OOOOLLLLOO");
    }
}

#[test]
fn the_old_flush_arrives_last_after_a_restart() {
    for [old, later] in flushes() {
        let mut stripe = Stripe::new(b"..........");
        stripe.flush(later);
        stripe.cut();
        stripe.flush(old);
        assert_eq!(stripe.image, b"OOOOLLLLOO");
    }
}

/// Both flushes came to their end, and the old one is sent again: noted and written, or written alone, at
/// once, after a cut, and after a compaction and a cut.
#[test]
fn the_old_flush_is_sent_again_last() {
    for [old, later] in flushes() {
        let mut stripe = Stripe::new(b"..........");
        stripe.flush(old);
        assert_eq!(stripe.image, b"OOOOOOOOOO");
        stripe.flush(later);
        assert_eq!(stripe.image, b"OOOOLLLLOO");
        let befores: [fn(&mut Stripe); 3] = [
            |_| {},
            |stripe| stripe.cut(),
            |stripe| {
                stripe.compact();
                stripe.turn();
                stripe.cut();
            },
        ];
        for before in befores {
            before(&mut stripe);
            stripe.write(old).unwrap();
            assert_eq!(stripe.image, b"OOOOLLLLOO");
            before(&mut stripe);
            stripe.flush(old);
            assert_eq!(stripe.image, b"OOOOLLLLOO");
        }
    }
}

/// The old flush is cut again and again: in its note, before and after the log has its entry, and in
/// its write. Each time the server comes back and the piece is sent again.
#[test]
fn the_old_flush_arrives_last_after_cuts() {
    for [old, later] in flushes() {
        let mut stripe = Stripe::new(b"..........");
        stripe.flush(later);
        stripe.cut_note_and_old_log();
        stripe.cut_note_and_new_log(old);
        stripe.cut_write(old, || b'?');
        assert_eq!(stripe.image, b"????LLLL??");
        stripe.write(old).unwrap();
        assert_eq!(stripe.image, b"OOOOLLLLOO");
    }
}

/// The later flush's write was cut before the old flush arrived. Its place isn't taken.
#[test]
fn the_old_flush_arrives_between_a_cut_and_the_resend() {
    for [old, later] in flushes() {
        let mut stripe = Stripe::new(b"..........");
        stripe.note(later).unwrap();
        stripe.cut_write(later, || b'?');
        stripe.flush(old);
        assert_eq!(stripe.image, b"OOOO????OO");
        stripe.write(later).unwrap();
        assert_eq!(stripe.image, b"OOOOLLLLOO");
    }
}

/// The log with the later flush's entry is compacted, and a cut finds the old log or the new one.
#[test]
fn the_old_flush_arrives_last_after_a_compaction() {
    for [old, later] in flushes() {
        for turned in [false, true] {
            let mut stripe = Stripe::new(b"..........");
            stripe.flush(later);
            stripe.compact();
            if turned {
                stripe.turn();
            }
            stripe.cut();
            stripe.note(old).unwrap();
            stripe.compact();
            stripe.write(old).unwrap();
            stripe.turn();
            stripe.cut();
            assert_eq!(stripe.log.entries().len(), 3);
            stripe.write(old).unwrap();
            assert_eq!(stripe.image, b"OOOOLLLLOO");
        }
    }
}

const IMAGE: u64 = 48;

/// The write grants of stripe 0 over a session of messages and lists, in the order in which they came.
fn grants(random: &mut Random) -> Vec<Record> {
    let (mut table, mut events) = (Table::new(), EventBuffer::new());
    let mut list_events = ListEventBuffer::new();
    let mut grants = Vec::new();
    for _ in 0..60 {
        let records: Vec<Record> = table.records().collect();
        let ask = |random: &mut Random| {
            let (client, mode) = (random.below(4), 1 + random.below(4));
            let stripe = u64::from(random.once_in(4));
            let first = random.below(IMAGE);
            Item::new(client, stripe, mode, first, first + random.below(12))
        };
        let answer = if records.is_empty() || random.once_in(3) {
            if random.once_in(8) {
                let mut items = [ask(random), ask(random)];
                let events = table.request_list(&mut list_events, &mut items).unwrap();
                grants.extend(events.filter(numbered));
                continue;
            }
            let Item { client, stripe, mode, first, last, .. } = ask(random);
            table.request(&mut events, client, stripe, mode, first, last)
        } else {
            let Record { client, handle, .. } = random.pick(&records);
            match random.below(4) {
                0 | 1 => table.acknowledge(&mut events, client, handle),
                2 => table.downgrade(&mut events, client, handle),
                _ => table.release(&mut events, client, handle),
            }
        };
        grants.extend(answer.into_iter().flat_map(|answer| answer.events).filter(numbered));
    }
    grants.into_iter().map(|event: Event| event.record).collect()
}

/// A grant of stripe 0 with a number.
fn numbered(event: &Event) -> bool {
    event.kind == Kind::Grant && event.record.stripe == 0 && event.record.mode != Mode::PR
}

/// A piece of a grant: the place of the grant in its session, and the piece.
struct Flush {
    grant: usize,
    number: Number,
    pass: u64,
    first: u64,
    bytes: Vec<u8>,
    noted: bool,
}

impl Flush {
    fn piece(&self) -> Piece<&[u8]> {
        let pass = Pass(self.pass);
        Piece { first: self.first, bytes: &self.bytes, number: self.number, pass }
    }

    fn places(&self) -> Range<u64> {
        self.first..self.first + self.bytes.len() as u64
    }
}

/// The byte that a grant's holder has at a place in a pass. It takes the next pass before it writes
/// anew, so the pieces of one pass agree. Two passes of the first forty grants have different bytes.
fn byte(grant: usize, pass: u64, place: u64) -> u8 {
    (3 * grant as u64 + pass + 128 * (place % 2)) as u8
}

/// One to three passes of each grant, and in each of them one or two pieces, inside of its range.
fn pieces(random: &mut Random, grants: &[Record]) -> Vec<Flush> {
    let mut pieces = Vec::new();
    for (grant, lock) in grants.iter().enumerate() {
        let (number, end) = (lock.number, (lock.last + 1).min(IMAGE));
        for pass in 1..=1 + random.below(3) {
            for _ in 0..1 + random.below(2) {
                let first = lock.first + random.below(end - lock.first);
                let last = first + random.below(end - first);
                let bytes = (first..=last).map(|place| byte(grant, pass, place)).collect();
                pieces.push(Flush { grant, number, pass, first, bytes, noted: false });
            }
        }
    }
    pieces
}

#[test]
fn flushes_in_any_order() {
    let Played { contested, rewritten, turned } = play(0..1_300, None);
    assert!(contested > 10_000, "{contested} bytes under pieces of two grants");
    assert!(rewritten > 10_000, "{rewritten} bytes under two passes of their last grant");
    assert!(turned > 2_000, "{turned} turns to a new log");
}

/// A server that turns to a log that was compacted before a note, by which bytes of the noted piece are
/// lost; and one that forgets the passes, so that what arrives last wins.
#[test]
fn wrong_servers() {
    for wrong in [Wrong::Heedless, Wrong::OnePass] {
        assert!(catch_unwind(|| play(0..50, Some(wrong))).is_err());
    }
    play(0..50, None);
}

#[derive(Default)]
struct Played {
    /// How many bytes had pieces of two grants, and how many had pieces of two passes of their last grant.
    contested: usize,
    rewritten: usize,
    /// How often the server turned to a new log.
    turned: usize,
}

/// Flushes at random, many of them cut, and compactions. Then the flushes come to their end from the
/// latest grant to the oldest, and from its last pass to its first, each after a cut or not: the older a
/// flush, the later it arrives. Some that were noted are noted again.
fn play(seeds: Range<u64>, wrong: Option<Wrong>) -> Played {
    let mut played = Played::default();
    for_seeds(seeds, |random| {
        let grants = grants(random);
        let mut pieces = pieces(random, &grants);
        let mut began = vec![0; IMAGE as usize];
        random.fill(&mut began);
        let mut stripe = Stripe { wrong, ..Stripe::new(&began) };
        for _ in 0..pieces.len() * 3 {
            let place = random.below(pieces.len() as u64) as usize;
            step(&mut stripe, random, &mut pieces[place]);
        }
        for piece in pieces.iter_mut().rev() {
            if random.once_in(4) {
                stripe.compact();
                stripe.turn();
            }
            if random.once_in(2) {
                stripe.cut();
            }
            if !piece.noted || random.once_in(4) {
                stripe.note(piece.piece()).unwrap();
                piece.noted = true;
            }
            stripe.write(piece.piece()).unwrap();
        }

        for place in 0..IMAGE {
            let over = |piece: &&Flush| piece.noted && piece.places().contains(&place);
            let over = || pieces.iter().filter(over);
            let mut expected = began[place as usize];
            if let Some(grant) = over().map(|piece| piece.grant).max() {
                let passes = || over().filter(|piece| piece.grant == grant).map(|p| p.pass);
                let pass = passes().max().unwrap();
                expected = byte(grant, pass, place);
                played.contested += usize::from(over().any(|piece| piece.grant != grant));
                played.rewritten += usize::from(passes().any(|other| other != pass));
            }
            assert_eq!(stripe.image[place as usize], expected, "byte {place}");
        }
        played.turned += stripe.turned;
    });
    played
}

/// One note or write of a piece, cut or whole; or a compaction, or the turn to its log, which a cut finds
/// done or not. A cut keeps the new log that the server has not turned to, or loses it.
fn step(stripe: &mut Stripe, random: &mut Random, flush: &mut Flush) {
    match random.below(12) {
        0 => stripe.cut_note_and_old_log(),
        1 => {
            stripe.cut_note_and_new_log(flush.piece());
            flush.noted = true;
        }
        2 | 3 => {
            stripe.note(flush.piece()).unwrap();
            flush.noted = true;
        }
        4 => stripe.cut_write(flush.piece(), || random.draw() as u8),
        5 => {
            stripe.new_log = stripe.new_log.take().filter(|_| random.once_in(2));
            stripe.cut();
        }
        6 | 7 => stripe.compact(),
        8 => stripe.turn(),
        9 => {
            if random.once_in(2) {
                stripe.turn();
            }
            stripe.cut();
        }
        _ => {
            let written = stripe.write(flush.piece());
            assert!(written.is_ok() || (!flush.noted && written == Err(Refusal::Smaller)));
        }
    }
}

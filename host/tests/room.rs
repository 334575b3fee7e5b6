//! The map's room. The map of n entries has at most 2n - 1 runs, a border for each end. So over a map of r
//! runs n more pieces fit, wherever they lie and whatever their ages, as long as r + n is at most 512.
//! With one more they need not. The notes are the library's and the model's.

use gilboreth_host::beside::Beside;
use gilboreth_host::calls::LIBRARY;
use gilboreth_host::model::runs::Age;
use gilboreth_host::model::stripe::Piece;
use gilboreth_host::random::{for_seeds, Random};
use gilboreth_host::{Log, Map};

const IMAGE: u64 = 1 << 20;

/// Ages that rise by number, by pass, and by both.
type Rising = fn(u64) -> Age;
const RISING: [Rising; 3] = [
    |count| Age::new(count, 1),
    |count| Age::new(1, count),
    |count| Age::new(1 + count / 40, 1 + count % 40),
];

struct Stripe<'a> {
    library: &'a mut Beside,
    map: Map,
    log: Log,
}

impl Stripe<'_> {
    fn new(library: &mut Beside) -> Stripe<'_> {
        Stripe { library, map: Map::new(), log: Log::new() }
    }

    /// Notes the bytes from first to last.
    fn note(&mut self, first: u64, last: u64, age: Age) -> u64 {
        let piece = Piece { first, bytes: last - first + 1, age };
        self.library.note(self.map.bytes_mut(), self.log.bytes_mut(), piece, IMAGE)
    }

    /// Compacts the log, turns to the new one, and restarts.
    fn compact(&mut self) {
        let mut new_log = Log::new();
        assert_eq!(self.library.compact(self.log.bytes(), new_log.bytes_mut()), 0);
        self.log = new_log;
        assert_eq!(self.library.restart(self.map.bytes_mut(), self.log.bytes()), 0);
    }

    fn runs(&self) -> usize {
        self.map.runs().len()
    }
}

/// Pieces inside of each other with rising ages, and pieces around each other with falling ones: each
/// adds a run on either side. 512 of them need 1,023 runs, and the 513th is refused.
#[test]
fn nested_pieces_need_the_most_runs() {
    let inwards: fn(u64) -> [u64; 3] = |place| [place, 2_000 - place, 1 + place];
    let outwards: fn(u64) -> [u64; 3] = |place| [1_000 - place, 1_000 + place, 1_000 - place];
    let mut library = Beside::new(LIBRARY);
    for piece in [inwards, outwards] {
        for rising in RISING {
            let mut stripe = Stripe::new(&mut library);
            for count in 1..=512 {
                let [first, last, age] = piece(count as u64);
                assert_eq!(stripe.note(first, last, rising(age)), 0);
                assert_eq!(stripe.runs(), 2 * count - 1);
                assert_eq!(stripe.map.pieces_that_fit(), 512_usize.saturating_sub(2 * count - 1));
            }
            let [first, last, age] = piece(513);
            assert_eq!(stripe.note(first, last, rising(age)), 16);
        }
    }
    library.reached(3_078, &[0, 16]);
}

/// A map of r runs, and over it so many pieces, of which all but the last are nested inside of the first
/// run, and the last is older than all: it fills every gap. Answers what that is answered.
fn oldest_last(stripe: &mut Stripe, runs: u64, pieces: u64, rising: Rising) -> u64 {
    for place in 0..runs {
        assert_eq!(stripe.note(1 + 2_000 * place, 1 + 2_000 * place + 1_500, rising(2)), 0);
    }
    assert_eq!(stripe.runs() as u64, runs);
    assert_eq!(stripe.map.pieces_that_fit() as u64, 512 - runs);
    for place in 1..pieces {
        assert_eq!(stripe.note(1 + place, 1_501 - place, rising(2 + place)), 0);
    }
    stripe.note(0, IMAGE - 1, rising(1))
}

/// r + n = 512 is accepted and needs 1,023 runs; r + n = 513 is refused. Compaction changes nothing of
/// it: the log has room again, and the map has not.
#[test]
fn the_rule_is_sharp() {
    let mut library = Beside::new(LIBRARY);
    for rising in RISING {
        for runs in [0, 1, 2, 200, 510, 511] {
            let mut stripe = Stripe::new(&mut library);
            assert_eq!(oldest_last(&mut stripe, runs, 512 - runs, rising), 0);
            assert_eq!(stripe.runs(), 1_023);
        }
        for runs in [0, 1, 2, 200, 511, 512] {
            let mut stripe = Stripe::new(&mut library);
            assert_eq!(oldest_last(&mut stripe, runs, 513 - runs, rising), 16);
            stripe.compact();
            assert_eq!(stripe.note(0, IMAGE - 1, rising(1)), 16);
        }
    }
    library.reached(18_504, &[0, 16]);
}

/// r + n = 512 with every piece noted twice, those of before again and again, and compactions between: a
/// piece that is noted again takes no room in the map.
#[test]
fn a_piece_that_is_noted_again_takes_no_room() {
    let mut library = Beside::new(LIBRARY);
    for rising in RISING {
        let mut stripe = Stripe::new(&mut library);
        for place in 0..256 {
            assert_eq!(stripe.note(2_000 * place + 1, 2_000 * place + 1_501, rising(2)), 0);
        }
        for place in 1..256 {
            assert_eq!(stripe.note(1 + place, 1_501 - place, rising(2 + place)), 0);
            let runs = stripe.runs();
            assert_eq!(stripe.note(1 + place, 1_501 - place, rising(2 + place)), 0);
            assert_eq!(stripe.note(2_000 * place + 1, 2_000 * place + 1_501, rising(2)), 0);
            assert_eq!(stripe.runs(), runs);
            if place % 100 == 0 {
                stripe.compact();
            }
        }
        for _ in 0..2 {
            assert_eq!(stripe.note(0, IMAGE - 1, rising(1)), 0);
            assert_eq!(stripe.runs(), 1_023);
        }
    }
    library.reached(3_081, &[0]);
}

/// A short piece, or an old one over many newer runs.
fn drawn(random: &mut Random) -> (u64, u64, Age) {
    let first = random.below(4_000);
    if random.once_in(6) {
        let old = Age::new(1 + random.below(3), 1 + random.below(3));
        return (first, first + random.below(4_000), old);
    }
    let newer = Age::new(4 + random.below(20), 1 + random.below(25));
    (first, first + random.below(6), newer)
}

/// Pieces drawn at random, as many as fit, are all accepted, and n of them after r runs leave at most
/// 2 (r + n) - 1.
#[test]
fn as_many_as_fit() {
    let (mut library, mut most) = (Beside::new(LIBRARY), 0);
    for_seeds(0..12, |random| {
        let mut stripe = Stripe::new(&mut library);
        let before = random.below(400);
        for _ in 0..before {
            let (first, last, age) = drawn(random);
            assert_eq!(stripe.note(first, last, age), 0);
        }
        let (runs, fit) = (stripe.runs(), stripe.map.pieces_that_fit());
        assert!(before == 0 || runs < 2 * before as usize);
        for noted in 1..=fit {
            if random.once_in(100) {
                stripe.compact();
            }
            let (first, last, age) = drawn(random);
            assert_eq!(stripe.note(first, last, age), 0);
            assert!(stripe.runs() < 2 * (runs + noted));
        }
        most = most.max(stripe.runs());
    });
    assert!(most > 512, "{most} runs");
    library.reached(5_000, &[0]);
}

//! Mode codes and state codes; handles, numbers and passes; ages.

/// The mode of a lock.
#[derive(Clone, Copy, Debug, PartialEq, Eq, Hash)]
pub enum Mode {
    PR = 1,
    NBW = 2,
    BW = 3,
    PW = 4,
}

impl Mode {
    /// The mode of a code, 1 to 4.
    pub fn of_code(code: u64) -> Option<Mode> {
        [Mode::PR, Mode::NBW, Mode::BW, Mode::PW].into_iter().find(|&mode| code == mode as u64)
    }
}

/// The code of a mode, as a request takes it.
impl From<Mode> for u64 {
    fn from(mode: Mode) -> u64 {
        mode as u64
    }
}

/// The state of a record. Granted, asked and canceling ones are held.
#[derive(Clone, Copy, Debug, PartialEq, Eq, Hash)]
pub enum State {
    Waiting = 0,
    Granted = 1,
    /// A revocation was sent.
    Asked = 2,
    Canceling = 3,
}

impl State {
    /// The state of a code, 0 to 3.
    pub fn of_code(code: u64) -> Option<State> {
        let states = [State::Waiting, State::Granted, State::Asked, State::Canceling];
        states.into_iter().find(|&state| code == state as u64)
    }

    pub fn held(self) -> bool {
        self != State::Waiting
    }
}

/// The code of a state.
impl From<State> for u64 {
    fn from(state: State) -> u64 {
        state as u64
    }
}

/// A handle: taken by each accepted request, over all stripes, from 1.
///
/// Any 64-bit value may be named in a message. One that no record has is refused with 9.
#[derive(Clone, Copy, Debug, PartialEq, Eq, PartialOrd, Ord, Hash)]
pub struct Handle(pub u64);

/// A sequence number: taken by each grant of NBW, BW or PW, per stripe, from 1. A PR lock and a
/// waiting request carry number 0.
///
/// Handles and numbers are counted apart, so neither is passed for the other:
///
/// ```compile_fail
/// use gilboreth_host::{EventBuffer, Number, Table};
///
/// let (mut table, mut events) = (Table::new(), EventBuffer::new());
/// let answer = table.release(&mut events, 0, Number(1));
/// ```
#[derive(Clone, Copy, Debug, PartialEq, Eq, PartialOrd, Ord, Hash)]
pub struct Number(pub u64);

/// A pass: counted by the client from 1 under each lock.
///
/// A client may flush, keep its lock and write again. A new piece gets the present pass when its bytes are
/// copied from the cache. Before the client writes anew to a byte that it has copied into a piece of the
/// present pass, it takes the next pass. A resend sends the same bytes with the same pass. So pieces of one
/// number and one pass agree wherever they overlap, and the later of two flushes wins, whichever arrives
/// last. At the highest pass, 4,294,967,295, the client flushes, releases its lock and requests
/// again.
///
/// A pass is not passed for a number either:
///
/// ```compile_fail
/// use gilboreth_host::{Number, Pass, Piece};
///
/// let piece = Piece { first: 0, bytes: 9, number: Pass(1), pass: Number(2) };
/// ```
#[derive(Clone, Copy, Debug, PartialEq, Eq, PartialOrd, Ord, Hash)]
pub struct Pass(pub u64);

/// By what pieces and runs are judged: by number first, and by pass second.
///
/// ```
/// use gilboreth_host::{Age, Number, Pass};
///
/// let age = |number, pass| Age { number: Number(number), pass: Pass(pass) };
/// assert!(age(1, 1) < age(1, 2));
/// assert!(age(1, 9) < age(2, 1));
/// ```
#[derive(Clone, Copy, Debug, PartialEq, Eq, PartialOrd, Ord, Hash)]
pub struct Age {
    pub number: Number,
    pub pass: Pass,
}

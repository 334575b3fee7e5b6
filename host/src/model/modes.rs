//! Mode codes, state codes, and table II of document 000.

#[derive(Clone, Copy, Debug, PartialEq, Eq)]
pub enum Mode {
    PR = 1,
    NBW = 2,
    BW = 3,
    PW = 4,
}

#[derive(Clone, Copy, Debug, PartialEq, Eq)]
pub enum State {
    Waiting = 0,
    Granted = 1,
    Asked = 2,
    Canceling = 3,
}

impl Mode {
    pub fn of_code(code: u64) -> Option<Mode> {
        match code {
            1 => Some(Mode::PR),
            2 => Some(Mode::NBW),
            3 => Some(Mode::BW),
            4 => Some(Mode::PW),
            _ => None,
        }
    }

    /// NBW, BW and PW write: their grants take a sequence number.
    pub fn writes(self) -> bool {
        self != Mode::PR
    }
}

impl State {
    pub fn of_code(code: u64) -> Option<State> {
        match code {
            0 => Some(State::Waiting),
            1 => Some(State::Granted),
            2 => Some(State::Asked),
            3 => Some(State::Canceling),
            _ => None,
        }
    }
}

enum Cell {
    No,
    Yes,
    UnlessCanceling,
}
use Cell::{No, UnlessCanceling, Yes};

/// Asked mode by row, held mode by column, both in the order PR, NBW, BW, PW.
const TABLE_II: [[Cell; 4]; 4] = [
    [No, Yes, Yes, Yes],
    [Yes, UnlessCanceling, Yes, Yes],
    [Yes, UnlessCanceling, Yes, Yes],
    [Yes, Yes, Yes, Yes],
];

/// Whether an asked mode conflicts with one held in this state.
/// Asked counts as granted, and so does waiting.
pub fn modes_conflict(asked: Mode, held: Mode, state: State) -> bool {
    match TABLE_II[asked as usize - 1][held as usize - 1] {
        No => false,
        Yes => true,
        UnlessCanceling => state != State::Canceling,
    }
}

//! Basalekko, the proved cache of an elevator dispatch group, through a safe interface. What each command does is in docs/COMMANDS.md.
//!
//! The state is lent: a [`Cache`] borrows the 65,536 bytes for as long as it lives, and a HIT borrows the cache, so that its value is read
//! before the next command.

#![deny(missing_docs)]

mod linked;

/// Bytes of the lent state.
pub const STATE_SIZE: usize = 65_536;

/// The version of the library that is linked.
pub fn version() -> u64 {
    linked::version()
}

/// Whether the bytes are a well-formed state.
pub fn well_formed(state: &[u8]) -> bool {
    linked::well_formed(state)
}

/// A command with its numbers, and with its value or operand.
#[derive(Clone, Copy, Debug, PartialEq, Eq)]
#[allow(missing_docs)]
pub enum Command<'v> {
    Begin,
    Get { session: u64, key: u64 },
    Fill { token: u64, key: u64, value: &'v [u8] },
    Quar { session: u64, key: u64, kind: Kind },
    Stage { session: u64, step: u64, key: u64, value: &'v [u8] },
    Delta { session: u64, step: u64, key: u64, operation: Operation, operand: &'v [u8] },
    Validate { session: u64, n: u64 },
    Done { session: u64 },
    Undo { session: u64 },
    Evict { key: u64 },
    Tick,
}

/// The kind of a Q row.
#[derive(Clone, Copy, Debug, PartialEq, Eq)]
#[allow(missing_docs)]
pub enum Kind {
    Invalidate = 1,
    Refresh = 2,
    Incremental = 3,
}

/// The operation of DELTA.
#[derive(Clone, Copy, Debug, PartialEq, Eq)]
#[allow(missing_docs)]
pub enum Operation {
    Append = 1,
    Prepend = 2,
    Increment = 3,
    Decrement = 4,
}

/// The answer of an accepted command.
#[derive(Clone, Copy, Debug, PartialEq, Eq)]
#[allow(missing_docs)]
pub enum Answer<'s> {
    /// The session's number.
    Session(u64),
    /// The value, where it stands in the lent state.
    Hit(&'s [u8]),
    Ask,
    /// The wait in ms, 0 where a sealed session blocks.
    Backoff(u64),
    /// The token.
    Lease(u64),
    Stored,
    Ignored,
    Held,
    Granted,
    Aborted,
    Staged,
    Repeated,
    Dropped,
    Validated,
    Lost,
    Done,
    Undone,
    Evicted,
    Empty,
    Ticked,
}

/// Why a command was refused. The state is as it was, byte for byte.
#[derive(Clone, Copy, Debug, PartialEq, Eq)]
#[allow(missing_docs)]
pub enum Refusal {
    State = 1,
    Clock = 2,
    Arg = 3,
    Long = 4,
    NoSession = 5,
    Sealed = 6,
    NotSealed = 7,
    NoLease = 8,
    Kind = 9,
    Ahead = 10,
    Full = 11,
    Room = 12,
    Numbers = 13,
}

/// A lent state.
pub struct Cache<'b> {
    state: &'b mut [u8; STATE_SIZE],
}

impl<'b> Cache<'b> {
    /// START: the fresh state, whatever the buffer held. Refused if a lifetime is not 1 to 600,000 ms.
    pub fn start(state: &'b mut [u8; STATE_SIZE], read_lifetime: u64, write_lifetime: u64) -> Result<Cache<'b>, Refusal> {
        let told = linked::start(state, read_lifetime, write_lifetime);
        match told.word {
            REFUSED => Err(refusal(told.detail)),
            _ => Ok(Cache { state }),
        }
    }

    /// The state that the buffer holds, if it is well formed.
    pub fn open(state: &'b mut [u8; STATE_SIZE]) -> Option<Cache<'b>> {
        well_formed(state).then_some(Cache { state })
    }

    /// The bytes of the state.
    pub fn bytes(&self) -> &[u8; STATE_SIZE] {
        self.state
    }

    /// One command, at the time in ms.
    pub fn run(&mut self, time: u64, command: Command) -> Result<Answer<'_>, Refusal> {
        let (number, numbers, value) = given(command);
        let told = linked::run(self.state, time, number, numbers, value);
        match told.word {
            REFUSED => Err(refusal(told.detail)),
            _ => Ok(answer(self.state, told)),
        }
    }

    /// SHOW: the value with which GET, nothing expiring, would answer HIT; the empty one is a value.
    pub fn show(&self, session: u64, key: u64) -> Result<Option<&[u8]>, Refusal> {
        let told = linked::show(self.state, session, key);
        match told.word {
            REFUSED => Err(refusal(told.detail)),
            NONE => Ok(None),
            _ => {
                let (place, length) = linked::stretch(self.state, session, key);
                Ok(Some(&self.state[place..place + length]))
            }
        }
    }
}

const REFUSED: u64 = 0;
const NONE: u64 = 23;

/// The command's number, its own numbers in their order, and its value.
fn given(command: Command<'_>) -> (u64, [u64; 4], &[u8]) {
    match command {
        Command::Begin => (1, [0; 4], b""),
        Command::Get { session, key } => (2, [session, key, 0, 0], b""),
        Command::Fill { token, key, value } => (3, [token, key, 0, 0], value),
        Command::Quar { session, key, kind } => (4, [session, key, kind as u64, 0], b""),
        Command::Stage { session, step, key, value } => (5, [session, step, key, 0], value),
        Command::Delta { session, step, key, operation, operand } => (6, [session, step, key, operation as u64], operand),
        Command::Validate { session, n } => (7, [session, n, 0, 0], b""),
        Command::Done { session } => (8, [session, 0, 0, 0], b""),
        Command::Undo { session } => (9, [session, 0, 0, 0], b""),
        Command::Evict { key } => (10, [key, 0, 0, 0], b""),
        Command::Tick => (11, [0; 4], b""),
    }
}

fn answer(state: &[u8], told: linked::Told) -> Answer<'_> {
    match told.word {
        2 => Answer::Session(told.detail),
        3 => Answer::Hit(&state[told.place..told.place + told.detail as usize]),
        4 => Answer::Ask,
        5 => Answer::Backoff(told.detail),
        6 => Answer::Lease(told.detail),
        7 => Answer::Stored,
        8 => Answer::Ignored,
        9 => Answer::Held,
        10 => Answer::Granted,
        11 => Answer::Aborted,
        12 => Answer::Staged,
        13 => Answer::Repeated,
        14 => Answer::Dropped,
        15 => Answer::Validated,
        16 => Answer::Lost,
        17 => Answer::Done,
        18 => Answer::Undone,
        19 => Answer::Evicted,
        20 => Answer::Empty,
        21 => Answer::Ticked,
        other => unreachable!("no command answers with word {other}"),
    }
}

const REFUSALS: [Refusal; 13] = [
    Refusal::State, Refusal::Clock, Refusal::Arg, Refusal::Long, Refusal::NoSession, Refusal::Sealed, Refusal::NotSealed,
    Refusal::NoLease, Refusal::Kind, Refusal::Ahead, Refusal::Full, Refusal::Room, Refusal::Numbers,
];

fn refusal(number: u64) -> Refusal {
    REFUSALS[number as usize - 1]
}

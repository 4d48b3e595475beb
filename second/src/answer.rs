//! Answers, their words and numbers, and the numbers of the refusals.

/// The refusal numbers, in the order in which the first that applies is given.
pub mod refusal {
    pub const STATE: u64 = 1;
    pub const CLOCK: u64 = 2;
    pub const ARG: u64 = 3;
    pub const LONG: u64 = 4;
    pub const NO_SESSION: u64 = 5;
    pub const SEALED: u64 = 6;
    pub const NOT_SEALED: u64 = 7;
    pub const NO_LEASE: u64 = 8;
    pub const KIND: u64 = 9;
    pub const AHEAD: u64 = 10;
    pub const FULL: u64 = 11;
    pub const ROOM: u64 = 12;
    pub const NUMBERS: u64 = 13;
}

/// What a command answers.
#[derive(Clone, Copy, Debug, PartialEq, Eq)]
pub enum Answer {
    /// START made the fresh state.
    Ready,
    /// BEGIN gave this session number.
    Session(u64),
    /// GET found a value: where it stands in the lent state, and its length.
    Hit {
        at: u64,
        length: u64,
    },
    /// GET: go to the register, no lease.
    Ask,
    /// GET: come again in so many ms; 0 where a sealed session blocks.
    Backoff(u64),
    /// GET gave this token.
    Lease(u64),
    Stored,
    Ignored,
    Held,
    Granted,
    Aborted,
    Staged,
    Repeated,
    Dropped,
    Validated,
    Lost,
    Done,
    Undone,
    Evicted,
    Empty,
    Ticked,
    /// The first refusal that applies, by its number.
    Refused(u64),
    /// SHOW: there is a value of this length.
    Value(u64),
    /// SHOW: there is no value.
    None,
}

impl Answer {
    /// The word that a rehearsal prints.
    pub fn word(self) -> &'static str {
        match self {
            Answer::Ready => "READY",
            Answer::Session(_) => "SESSION",
            Answer::Hit { .. } => "HIT",
            Answer::Ask => "ASK",
            Answer::Backoff(_) => "BACKOFF",
            Answer::Lease(_) => "LEASE",
            Answer::Stored => "STORED",
            Answer::Ignored => "IGNORED",
            Answer::Held => "HELD",
            Answer::Granted => "GRANTED",
            Answer::Aborted => "ABORTED",
            Answer::Staged => "STAGED",
            Answer::Repeated => "REPEATED",
            Answer::Dropped => "DROPPED",
            Answer::Validated => "VALIDATED",
            Answer::Lost => "LOST",
            Answer::Done => "DONE",
            Answer::Undone => "UNDONE",
            Answer::Evicted => "EVICTED",
            Answer::Empty => "EMPTY",
            Answer::Ticked => "TICKED",
            Answer::Refused(_) => "REFUSED",
            Answer::Value(_) => "VALUE",
            Answer::None => "NONE",
        }
    }

    /// The answer's place in the list above, from 0.
    pub fn number(self) -> u64 {
        match self {
            Answer::Ready => 0,
            Answer::Session(_) => 1,
            Answer::Hit { .. } => 2,
            Answer::Ask => 3,
            Answer::Backoff(_) => 4,
            Answer::Lease(_) => 5,
            Answer::Stored => 6,
            Answer::Ignored => 7,
            Answer::Held => 8,
            Answer::Granted => 9,
            Answer::Aborted => 10,
            Answer::Staged => 11,
            Answer::Repeated => 12,
            Answer::Dropped => 13,
            Answer::Validated => 14,
            Answer::Lost => 15,
            Answer::Done => 16,
            Answer::Undone => 17,
            Answer::Evicted => 18,
            Answer::Empty => 19,
            Answer::Ticked => 20,
            Answer::Refused(_) => 21,
            Answer::Value(_) => 22,
            Answer::None => 23,
        }
    }

    /// The number that the answer carries, if it carries one. A HIT carries a value instead.
    pub fn detail(self) -> Option<u64> {
        match self {
            Answer::Session(n)
            | Answer::Backoff(n)
            | Answer::Lease(n)
            | Answer::Refused(n)
            | Answer::Value(n) => Some(n),
            _ => None,
        }
    }

    /// Whether the command was refused, so that nothing of it was kept.
    pub fn is_refused(self) -> bool {
        matches!(self, Answer::Refused(_))
    }
}

//! The commands that carry a time, and the refusals that a command shows by itself.

use crate::answer::refusal;
use crate::numbers::{APPEND, DECREMENT, INCREMENTAL, INVALIDATE, KEYS, MOST_STEPS, VALUE_BYTES};

/// A command but START and SHOW. Its numbers are as the client gave them, of 64 bits; the value of
/// FILL and STAGE and the operand of DELTA stand beside it.
#[derive(Clone, Copy, Debug, PartialEq, Eq)]
pub enum Command {
    Begin,
    Get { session: u64, key: u64 },
    Fill { token: u64, key: u64 },
    Quar { session: u64, key: u64, kind: u64 },
    Stage { session: u64, step: u64, key: u64 },
    Delta { session: u64, step: u64, key: u64, operation: u64 },
    Validate { session: u64, n: u64 },
    Done { session: u64 },
    Undo { session: u64 },
    Evict { key: u64 },
    Tick,
}

/// How many numbers the command of each number carries, BEGIN first.
const FIELDS: [usize; 11] = [0, 2, 2, 3, 3, 4, 2, 1, 1, 1, 0];

impl Command {
    /// The command's place in the document's list, from 1.
    pub fn number(self) -> u64 {
        match self {
            Command::Begin => 1,
            Command::Get { .. } => 2,
            Command::Fill { .. } => 3,
            Command::Quar { .. } => 4,
            Command::Stage { .. } => 5,
            Command::Delta { .. } => 6,
            Command::Validate { .. } => 7,
            Command::Done { .. } => 8,
            Command::Undo { .. } => 9,
            Command::Evict { .. } => 10,
            Command::Tick => 11,
        }
    }

    /// The command of a number, its own numbers first in `fields`; none outside the list.
    pub fn of(number: u64, fields: [u64; 4]) -> Option<Command> {
        let [a, b, c, d] = fields;
        Some(match number {
            1 => Command::Begin,
            2 => Command::Get { session: a, key: b },
            3 => Command::Fill { token: a, key: b },
            4 => Command::Quar { session: a, key: b, kind: c },
            5 => Command::Stage { session: a, step: b, key: c },
            6 => Command::Delta { session: a, step: b, key: c, operation: d },
            7 => Command::Validate { session: a, n: b },
            8 => Command::Done { session: a },
            9 => Command::Undo { session: a },
            10 => Command::Evict { key: a },
            11 => Command::Tick,
            _ => return None,
        })
    }

    /// How many numbers the command of this number carries (`number` is 1 to 11).
    pub fn fields(number: u64) -> usize {
        FIELDS[number as usize - 1]
    }

    /// Whether the command of this number has a value or an operand beside it.
    pub fn has_value(number: u64) -> bool {
        matches!(number, 3 | 5 | 6)
    }

    /// ARG or LONG: what the command and its value show without the state.
    pub fn refusal(self, value: &[u8]) -> Option<u64> {
        let fits = match self {
            Command::Get { key, .. } | Command::Fill { key, .. } | Command::Evict { key } => {
                is_key(key)
            }
            Command::Quar { key, kind, .. } => {
                is_key(key) && (INVALIDATE..=INCREMENTAL).contains(&kind)
            }
            Command::Stage { step, key, .. } => is_key(key) && step < MOST_STEPS,
            Command::Delta { step, key, operation, .. } => {
                is_key(key) && step < MOST_STEPS && (APPEND..=DECREMENT).contains(&operation)
            }
            Command::Validate { n, .. } => n <= MOST_STEPS,
            Command::Begin | Command::Done { .. } | Command::Undo { .. } | Command::Tick => true,
        };
        if !fits {
            return Some(refusal::ARG);
        }
        if Command::has_value(self.number()) && value.len() > VALUE_BYTES {
            return Some(refusal::LONG);
        }
        None
    }
}

/// Whether a client's number is a key.
pub fn is_key(key: u64) -> bool {
    key < KEYS as u64
}

//! What a rehearsal needs of a cache, met by the machine and by the lent state.

use crate::answer::Answer;
use crate::command::Command;
use crate::lent::{self, layout, read};
use crate::machine::Machine;
use crate::numbers::STATE_BYTES;
use crate::tables::{Staged, Standing};

pub trait Cache {
    /// START.
    fn start(&mut self, read_lifetime: u64, write_lifetime: u64) -> Answer;

    /// Runs a command at now.
    fn run(&mut self, now: u64, command: Command, value: &[u8]) -> Answer;

    /// The value of the HIT that a GET of this session and key has just answered.
    fn hit(&self, session: u64, key: u64, at: u64, length: u64) -> &[u8];

    /// Whether the session is live in the state as it stands.
    fn is_live(&self, session: u64) -> bool;

    /// Whether the session is live and sealed and has a row on the key.
    fn may_write(&self, session: u64, key: u8) -> bool;

    /// Whether all values that the session has staged pass the test.
    fn all_staged(&self, session: u64, test: impl Fn(u8, &[u8]) -> bool) -> bool;
}

impl Cache for Machine {
    fn start(&mut self, read_lifetime: u64, write_lifetime: u64) -> Answer {
        Machine::start(self, read_lifetime, write_lifetime)
    }

    fn run(&mut self, now: u64, command: Command, value: &[u8]) -> Answer {
        Machine::run(self, now, command, value)
    }

    fn hit(&self, session: u64, key: u64, _at: u64, _length: u64) -> &[u8] {
        match self.show(session, key) {
            Ok(Some((_, value))) => value,
            _ => &[],
        }
    }

    fn is_live(&self, session: u64) -> bool {
        self.sessions().contains_key(&session)
    }

    fn may_write(&self, session: u64, key: u8) -> bool {
        self.sessions().get(&session).is_some_and(|session| {
            session.standing == Standing::Sealed && session.rows.contains_key(&key)
        })
    }

    fn all_staged(&self, session: u64, test: impl Fn(u8, &[u8]) -> bool) -> bool {
        self.sessions().get(&session).is_none_or(|session| {
            session.rows.iter().all(|(key, row)| match &row.staged {
                Staged::Value(value) => test(*key, value),
                Staged::Nothing | Staged::Drop => true,
            })
        })
    }
}

/// A buffer of 65,536 bytes that is lent to each command.
pub struct LentState {
    bytes: Box<layout::Bytes>,
}

impl Default for LentState {
    fn default() -> LentState {
        LentState { bytes: Box::new([0; STATE_BYTES]) }
    }
}

impl LentState {
    pub fn bytes(&self) -> &[u8] {
        &self.bytes[..]
    }
}

impl Cache for LentState {
    fn start(&mut self, read_lifetime: u64, write_lifetime: u64) -> Answer {
        lent::start(&mut self.bytes[..], read_lifetime, write_lifetime)
    }

    fn run(&mut self, now: u64, command: Command, value: &[u8]) -> Answer {
        lent::run(&mut self.bytes[..], now, command, value)
    }

    fn hit(&self, _session: u64, _key: u64, at: u64, length: u64) -> &[u8] {
        &self.bytes[at as usize..(at + length) as usize]
    }

    fn is_live(&self, session: u64) -> bool {
        read::place_of(&self.bytes, session).is_some()
    }

    fn may_write(&self, session: u64, key: u8) -> bool {
        read::place_of(&self.bytes, session).is_some_and(|place| {
            layout::sessions(&self.bytes)[place][layout::STANDING] == layout::SEALED
                && read::own_row(&self.bytes, session, key).is_some()
        })
    }

    fn all_staged(&self, session: u64, test: impl Fn(u8, &[u8]) -> bool) -> bool {
        layout::rows(&self.bytes)
            .iter()
            .filter(|row| {
                read::is_taken(row) && layout::u32_at(*row, layout::ROW_SESSION) == session
            })
            .filter(|row| row[layout::ROW_STAGED] == layout::VALUE)
            .all(|row| {
                let length = usize::from(row[layout::ROW_LENGTH]);
                test(row[layout::ROW_KEY], &row[layout::ROW_VALUE..layout::ROW_VALUE + length])
            })
    }
}

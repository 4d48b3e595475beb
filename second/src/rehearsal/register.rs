//! A model of the register and of what the clients' four rules need to remember.

use crate::numbers::{KEYS, SESSIONS};
use crate::value::Value;

/// The register's values, empty at first; for each key the value at the last grant of an I lease;
/// and the sessions for which the register wrote while they were live.
pub struct Register {
    values: Vec<Value>,
    at_grant: Vec<Value>,
    written_for: Vec<u64>,
}

impl Default for Register {
    fn default() -> Register {
        Register {
            values: vec![Value::EMPTY; KEYS],
            at_grant: vec![Value::EMPTY; KEYS],
            written_for: Vec::with_capacity(SESSIONS),
        }
    }
}

impl Register {
    /// The value that the register holds for the key.
    pub fn value(&self, key: u8) -> &Value {
        &self.values[usize::from(key)]
    }

    /// Writes, also where that breaks a rule.
    pub fn write(&mut self, key: u8, value: Value) {
        self.values[usize::from(key)] = value;
    }

    /// A token was granted on the key.
    pub fn grant(&mut self, key: u8) {
        self.at_grant[usize::from(key)] = self.values[usize::from(key)];
    }

    /// The value at the last grant of an I lease on the key.
    pub fn at_grant(&self, key: u8) -> &Value {
        &self.at_grant[usize::from(key)]
    }

    /// Whether a stored FILL keeps rule 1: the value is the register's at the grant or now.
    pub fn allows_fill(&self, key: u8, value: &[u8]) -> bool {
        **self.at_grant(key) == *value || **self.value(key) == *value
    }

    /// The register wrote for a live session. Numbers are never given twice, so those of sessions
    /// that have ended are forgotten when room is needed.
    pub fn note_write_for(&mut self, session: u64, is_live: impl Fn(u64) -> bool) {
        if self.has_written_for(session) {
            return;
        }
        if self.written_for.len() == SESSIONS {
            self.written_for.retain(|session| is_live(*session));
        }
        self.written_for.push(session);
    }

    /// Whether the register has written for the session while it was live.
    pub fn has_written_for(&self, session: u64) -> bool {
        self.written_for.contains(&session)
    }
}

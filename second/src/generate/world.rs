//! What the generator knows: the rehearsal that all lines so far have made, and what clients
//! remember.

use super::random::Random;
use crate::machine::{Machine, Session};
use crate::numbers::KEYS;
use crate::rehearsal::register::Register;
use crate::rehearsal::Rehearsal;
use crate::tables::Standing;
use crate::value::Value;

/// How many granted tokens clients remember.
const TOKENS: usize = 32;

pub struct World {
    pub random: Random,
    rehearsal: Rehearsal<Machine>,
    tokens: Vec<Granted>,
    before: Vec<Value>,
    answer: Vec<u8>,
}

/// A token, its key, and the register's value at the grant.
#[derive(Clone)]
pub struct Granted {
    pub token: u64,
    pub key: u8,
    pub value: Value,
}

impl World {
    pub fn new(seed: u64) -> World {
        World {
            random: Random::new(seed),
            rehearsal: Rehearsal::new(Machine::fresh(1, 1)),
            tokens: Vec::new(),
            before: vec![Value::EMPTY; KEYS],
            answer: Vec::new(),
        }
    }

    pub fn machine(&self) -> &Machine {
        &self.rehearsal.cache
    }

    pub fn register(&self) -> &Register {
        &self.rehearsal.register
    }

    pub fn session(&self, number: u64) -> &Session {
        &self.machine().sessions()[&number]
    }

    /// The numbers of the open sessions.
    pub fn open(&self) -> Vec<u64> {
        self.standing(|standing| standing != Standing::Sealed)
    }

    /// The numbers of the sealed sessions.
    pub fn sealed(&self) -> Vec<u64> {
        self.standing(|standing| standing == Standing::Sealed)
    }

    fn standing(&self, test: impl Fn(Standing) -> bool) -> Vec<u64> {
        let sessions = self.machine().sessions().iter();
        sessions.filter(|(_, session)| test(session.standing)).map(|(number, _)| *number).collect()
    }

    /// A token that was granted: most often one whose lease is still there, seldom any.
    pub fn granted(&mut self) -> Option<Granted> {
        let leased = |granted: &&Granted| {
            let lease = self.rehearsal.cache.lease(granted.key);
            lease.is_some_and(|lease| lease.token == granted.token)
        };
        let live: Vec<Granted> = self.tokens.iter().filter(leased).cloned().collect();
        match self.random.chance(20) {
            true => self.random.pick(&self.tokens),
            false => self.random.pick(&live),
        }
    }

    /// A value that the register held for the key before its last write.
    pub fn held_before(&self, key: u8) -> &Value {
        &self.before[usize::from(key)]
    }

    /// Runs a line.
    pub fn hear(&mut self, line: &[u8]) {
        let key = written_key(line);
        let old = *self.register().value(key);
        let token = self.machine().next_token();
        self.answer.clear();
        self.rehearsal.line(line, &mut self.answer);
        if *self.register().value(key) != old {
            self.before[usize::from(key)] = old;
        }
        if self.machine().next_token() != token {
            self.note_grant(token);
        }
    }

    /// Remembers a token just granted, in place of the oldest.
    fn note_grant(&mut self, token: u64) {
        let leased =
            |key: &u8| self.machine().lease(*key).is_some_and(|lease| lease.token == token);
        let Some(key) = (0..=255).find(leased) else {
            return;
        };
        let value = *self.register().value(key);
        if self.tokens.len() == TOKENS {
            self.tokens.remove(0);
        }
        self.tokens.push(Granted { token, key, value });
    }
}

/// The key of a C line, or 0.
fn written_key(line: &[u8]) -> u8 {
    match crate::rehearsal::line::read(line) {
        Some(crate::rehearsal::line::Line::Write { key, .. }) => key,
        _ => 0,
    }
}

//! The machine on structures of its own: sessions by number, each with its rows by key; keys, each
//! with the sessions that hold it; and the deadlines in order. The document's sentences read
//! straight off it, and a refused command that had to expire something is undone from a copy.

mod act;
mod image;
mod places;

use crate::answer::{refusal, Answer};
use crate::command::{is_key, Command};
use crate::lent::layout;
use crate::numbers::*;
use crate::tables::{Lease, Staged, Standing};
use crate::value::Value;
use places::Places;
use std::collections::{BTreeMap, BTreeSet};

/// The whole state.
#[derive(Clone)]
pub struct Machine {
    clock: u64,
    read_lifetime: u64,
    write_lifetime: u64,
    next_session: u64,
    next_token: u64,
    keys: Vec<Key>,
    sessions: BTreeMap<u64, Session>,
    deadlines: BTreeSet<(u64, Ends)>,
    session_places: Places,
    row_places: Places,
}

/// A key: its cached value, its I lease, and the sessions with a Q row on it.
#[derive(Clone, Default)]
struct Key {
    value: Option<Value>,
    lease: Option<Lease>,
    holders: BTreeSet<u64>,
}

/// A live session and its Q rows by key.
#[derive(Clone)]
pub struct Session {
    place: usize,
    pub standing: Standing,
    pub count: u64,
    pub rows: BTreeMap<u8, Row>,
}

/// A Q row of a session on a key.
#[derive(Clone)]
pub struct Row {
    place: usize,
    pub kind: u64,
    pub staged: Staged,
}

/// What ends at a deadline.
#[derive(Clone, Copy, PartialEq, Eq, PartialOrd, Ord)]
enum Ends {
    Lease(u8),
    Session(u64),
}

impl Machine {
    /// The fresh state of these lifetimes, clock 0.
    pub fn fresh(read_lifetime: u64, write_lifetime: u64) -> Machine {
        Machine {
            clock: 0,
            read_lifetime,
            write_lifetime,
            next_session: 1,
            next_token: 1,
            keys: vec![Key::default(); KEYS],
            sessions: BTreeMap::new(),
            deadlines: BTreeSet::new(),
            session_places: Places::all_free(SESSIONS),
            row_places: Places::all_free(ROWS),
        }
    }

    /// START.
    pub fn start(&mut self, read_lifetime: u64, write_lifetime: u64) -> Answer {
        if !is_lifetime(read_lifetime) || !is_lifetime(write_lifetime) {
            return Answer::Refused(refusal::ARG);
        }
        *self = Machine::fresh(read_lifetime, write_lifetime);
        Answer::Ready
    }

    /// Runs a command at now, its value beside it.
    pub fn run(&mut self, now: u64, command: Command, value: &[u8]) -> Answer {
        if now < self.clock || now > LAST_TIME {
            return Answer::Refused(refusal::CLOCK);
        }
        if let Some(number) = command.refusal(value) {
            return Answer::Refused(number);
        }
        let before = self.something_ends(now).then(|| self.clone());
        self.expire(now);
        match self.act(now, command, value) {
            Ok(answer) => {
                self.clock = now;
                answer
            }
            Err(number) => {
                if let Some(before) = before {
                    *self = before;
                }
                Answer::Refused(number)
            }
        }
    }

    /// SHOW: the value with which GET, nothing expiring, would answer HIT, and where it stands in
    /// the lent layout; or ARG or NO SESSION.
    pub fn show(&self, session: u64, key: u64) -> Result<Option<(usize, &Value)>, u64> {
        if !is_key(key) {
            return Err(refusal::ARG);
        }
        if session != 0 {
            self.live(session)?;
        }
        Ok(self.found(session, key as u8))
    }

    /// The live session of this number, or NO SESSION.
    fn live(&self, session: u64) -> Result<&Session, u64> {
        self.sessions.get(&session).ok_or(refusal::NO_SESSION)
    }

    /// The value that the session (0: anyone) reads on the key, and where it stands.
    fn found(&self, session: u64, key: u8) -> Option<(usize, &Value)> {
        let cached = self.keys[usize::from(key)].value.as_ref();
        let cached = cached.map(|value| (layout::cached_at(key), value));
        match self.row(session, key) {
            None => cached,
            Some(row) => match &row.staged {
                Staged::Value(value) => Some((layout::staged_at(row.place), value)),
                Staged::Drop => None,
                Staged::Nothing if row.kind == INVALIDATE => None,
                Staged::Nothing => cached,
            },
        }
    }

    /// The session's row on the key.
    fn row(&self, session: u64, key: u8) -> Option<&Row> {
        self.sessions.get(&session)?.rows.get(&key)
    }

    /// Whether a deadline is at or before now.
    fn something_ends(&self, now: u64) -> bool {
        self.deadlines.first().is_some_and(|(deadline, _)| *deadline <= now)
    }

    /// Expiry: I leases are removed; open sessions end, the values of their keys are dropped.
    fn expire(&mut self, now: u64) {
        while self.something_ends(now) {
            match self.deadlines.first().map(|(_, ends)| *ends) {
                Some(Ends::Lease(key)) => self.set_lease(key, None),
                Some(Ends::Session(number)) => {
                    for key in self.end(number).into_keys() {
                        self.keys[usize::from(key)].value = None;
                    }
                }
                None => {}
            }
        }
    }

    /// The session ends and its rows are freed; cached values stay. Gives the rows that it had.
    fn end(&mut self, number: u64) -> BTreeMap<u8, Row> {
        let Some(session) = self.sessions.remove(&number) else {
            return BTreeMap::new();
        };
        if let Standing::Open { deadline } = session.standing {
            self.deadlines.remove(&(deadline, Ends::Session(number)));
        }
        self.session_places.free(session.place);
        for (key, row) in &session.rows {
            self.row_places.free(row.place);
            self.keys[usize::from(*key)].holders.remove(&number);
        }
        session.rows
    }

    /// The key's I lease becomes this one, or none.
    fn set_lease(&mut self, key: u8, lease: Option<Lease>) {
        let held = &mut self.keys[usize::from(key)].lease;
        if let Some(old) = held {
            self.deadlines.remove(&(old.deadline, Ends::Lease(key)));
        }
        if let Some(new) = lease {
            self.deadlines.insert((new.deadline, Ends::Lease(key)));
        }
        *held = lease;
    }
}

/// What a rehearsal and a generator of its lines ask the state.
impl Machine {
    pub fn clock(&self) -> u64 {
        self.clock
    }

    pub fn read_lifetime(&self) -> u64 {
        self.read_lifetime
    }

    pub fn write_lifetime(&self) -> u64 {
        self.write_lifetime
    }

    /// The number that BEGIN would give.
    pub fn next_session(&self) -> u64 {
        self.next_session
    }

    /// The token that GET would give.
    pub fn next_token(&self) -> u64 {
        self.next_token
    }

    /// The live sessions as they stand, by number.
    pub fn sessions(&self) -> &BTreeMap<u64, Session> {
        &self.sessions
    }

    pub fn lease(&self, key: u8) -> Option<Lease> {
        self.keys[usize::from(key)].lease
    }

    pub fn cached(&self, key: u8) -> Option<&Value> {
        self.keys[usize::from(key)].value.as_ref()
    }

    /// The deadlines of the state, the earliest first.
    pub fn deadlines(&self) -> impl Iterator<Item = u64> + '_ {
        self.deadlines.iter().map(|(deadline, _)| *deadline)
    }

    /// How many Q rows are held.
    pub fn rows_held(&self) -> usize {
        self.sessions.values().map(|session| session.rows.len()).sum()
    }
}

//! The commands, on a state where everything that ends by now has ended. A refusal is found before
//! anything is changed.

use super::{Ends, Machine, Row, Session};
use crate::answer::{refusal, Answer};
use crate::command::Command;
use crate::count;
use crate::decision::{asking_i, asking_q, Decision, Held};
use crate::numbers::{INCREMENTAL, NUMBERS_END, REFRESH};
use crate::tables::{Lease, Staged, Standing};
use crate::value::Value;
use std::collections::BTreeMap;

/// A command's answer, or the number of its refusal.
type Outcome = Result<Answer, u64>;

impl Machine {
    pub(super) fn act(&mut self, now: u64, command: Command, value: &[u8]) -> Outcome {
        match command {
            Command::Begin => self.begin(now),
            Command::Get { session, key } => self.get(now, session, key as u8),
            Command::Fill { token, key } => Ok(self.fill(token, key as u8, value)),
            Command::Quar { session, key, kind } => self.quar(session, key as u8, kind),
            Command::Stage { session, step, key } => self.stage(session, step, key as u8, value),
            Command::Delta { session, step, key, operation } => {
                self.delta(session, step, key as u8, operation, value)
            }
            Command::Validate { session, n } => self.validate(session, n),
            Command::Done { session } => self.done(session),
            Command::Undo { session } => self.undo(session),
            Command::Evict { key } => Ok(self.evict(key as u8)),
            Command::Tick => Ok(Answer::Ticked),
        }
    }

    fn begin(&mut self, now: u64) -> Outcome {
        let place = self.session_places.lowest_free().ok_or(refusal::FULL)?;
        let number = self.next_session;
        if number >= NUMBERS_END {
            return Err(refusal::NUMBERS);
        }
        let deadline = now + self.write_lifetime;
        let standing = Standing::Open { deadline };
        self.next_session += 1;
        self.session_places.take(place);
        self.deadlines.insert((deadline, Ends::Session(number)));
        self.sessions.insert(number, Session { place, standing, count: 0, rows: BTreeMap::new() });
        Ok(Answer::Session(number))
    }

    fn get(&mut self, now: u64, session: u64, key: u8) -> Outcome {
        if session != 0 {
            self.live(session)?;
        }
        if let Some((at, value)) = self.found(session, key) {
            return Ok(Answer::Hit { at: at as u64, length: value.len() as u64 });
        }
        if self.row(session, key).is_some() {
            return Ok(Answer::Ask);
        }
        if asking_i(self.held(key)) != Decision::Grant {
            return Ok(Answer::Backoff(self.wait(now, key)));
        }
        let token = self.next_token;
        if token >= NUMBERS_END {
            return Err(refusal::NUMBERS);
        }
        self.next_token += 1;
        self.set_lease(key, Some(Lease { token, deadline: now + self.read_lifetime }));
        Ok(Answer::Lease(token))
    }

    /// What is held on the key.
    fn held(&self, key: u8) -> Held {
        let record = &self.keys[usize::from(key)];
        match record.holders.first().and_then(|session| self.row(*session, key)) {
            Some(row) => Held::row(row.kind),
            None if record.lease.is_some() => Held::I,
            None => Held::None,
        }
    }

    /// 0 if a sealed session blocks the key, else the latest blocking deadline less now.
    fn wait(&self, now: u64, key: u8) -> u64 {
        let record = &self.keys[usize::from(key)];
        let mut latest = record.lease.map_or(now, |lease| lease.deadline);
        for session in &record.holders {
            match self.sessions[session].standing {
                Standing::Sealed => return 0,
                Standing::Open { deadline } => latest = latest.max(deadline),
            }
        }
        latest - now
    }

    fn fill(&mut self, token: u64, key: u8, value: &[u8]) -> Answer {
        match self.keys[usize::from(key)].lease {
            Some(lease) if lease.token == token => {
                self.keys[usize::from(key)].value = Value::of(value);
                self.set_lease(key, None);
                Answer::Stored
            }
            _ => Answer::Ignored,
        }
    }

    /// A live session that is open, or NO SESSION or SEALED.
    fn open(&self, session: u64) -> Result<&Session, u64> {
        let session = self.live(session)?;
        match session.standing {
            Standing::Open { .. } => Ok(session),
            Standing::Sealed => Err(refusal::SEALED),
        }
    }

    fn quar(&mut self, session: u64, key: u8, kind: u64) -> Outcome {
        let asker = self.open(session)?;
        if asker.rows.get(&key).is_some_and(|row| row.kind == kind) {
            return Ok(Answer::Held);
        }
        match asking_q(self.held(key), kind) {
            Decision::Grant | Decision::GrantVoidI => {
                let place = self.row_places.lowest_free().ok_or(refusal::ROOM)?;
                self.set_lease(key, None);
                self.row_places.take(place);
                self.keys[usize::from(key)].holders.insert(session);
                if let Some(asker) = self.sessions.get_mut(&session) {
                    asker.rows.insert(key, Row { place, kind, staged: Staged::Nothing });
                }
                Ok(Answer::Granted)
            }
            Decision::BackOff | Decision::AbortAsker => {
                self.end(session);
                Ok(Answer::Aborted)
            }
        }
    }

    /// Whether this step of the session on the key is the next one; before it, the refusals of
    /// STAGE and DELTA in order: NO SESSION, SEALED, NO LEASE, KIND, AHEAD.
    fn is_next(&self, session: u64, step: u64, key: u8, kind: u64) -> Result<bool, u64> {
        let session = self.open(session)?;
        let row = session.rows.get(&key).ok_or(refusal::NO_LEASE)?;
        if row.kind != kind {
            return Err(refusal::KIND);
        }
        if step > session.count {
            return Err(refusal::AHEAD);
        }
        Ok(step == session.count)
    }

    fn stage(&mut self, session: u64, step: u64, key: u8, value: &[u8]) -> Outcome {
        if !self.is_next(session, step, key, REFRESH)? {
            return Ok(Answer::Repeated);
        }
        Ok(self.take_step(session, key, Value::of(value)))
    }

    fn delta(
        &mut self,
        session: u64,
        step: u64,
        key: u8,
        operation: u64,
        operand: &[u8],
    ) -> Outcome {
        if !self.is_next(session, step, key, INCREMENTAL)? {
            return Ok(Answer::Repeated);
        }
        let value = self.found(session, key).map(|(_, value)| value);
        let made = value.and_then(|value| count::result(operation, value, operand));
        Ok(self.take_step(session, key, made))
    }

    /// Stages the value, or DROP where there is none, and counts the step.
    fn take_step(&mut self, session: u64, key: u8, made: Option<Value>) -> Answer {
        if let Some(session) = self.sessions.get_mut(&session) {
            session.count += 1;
            if let Some(row) = session.rows.get_mut(&key) {
                row.staged = made.map_or(Staged::Drop, Staged::Value);
            }
        }
        match made {
            Some(_) => Answer::Staged,
            None => Answer::Dropped,
        }
    }

    fn validate(&mut self, session: u64, n: u64) -> Outcome {
        let Session { standing, count, .. } = *self.live(session)?;
        match standing {
            Standing::Sealed if n == count => Ok(Answer::Validated),
            Standing::Sealed => Err(refusal::SEALED),
            Standing::Open { deadline } if n == count => {
                self.deadlines.remove(&(deadline, Ends::Session(session)));
                if let Some(session) = self.sessions.get_mut(&session) {
                    session.standing = Standing::Sealed;
                }
                Ok(Answer::Validated)
            }
            Standing::Open { .. } => {
                self.end(session);
                Ok(Answer::Lost)
            }
        }
    }

    fn done(&mut self, session: u64) -> Outcome {
        if self.live(session)?.standing != Standing::Sealed {
            return Err(refusal::NOT_SEALED);
        }
        for (key, row) in self.end(session) {
            self.keys[usize::from(key)].value = match row.staged {
                Staged::Value(value) => Some(value),
                Staged::Nothing | Staged::Drop => None,
            };
        }
        Ok(Answer::Done)
    }

    fn undo(&mut self, session: u64) -> Outcome {
        self.live(session)?;
        self.end(session);
        Ok(Answer::Undone)
    }

    fn evict(&mut self, key: u8) -> Answer {
        match self.keys[usize::from(key)].value.take() {
            Some(_) => Answer::Evicted,
            None => Answer::Empty,
        }
    }
}

//! The machine's state to and from the plain tables.

use super::places::Places;
use super::{Ends, Key, Machine, Row, Session};
use crate::numbers::{ROWS, SESSIONS};
use crate::tables::{KeyRecord, RowRecord, SessionRecord, Standing, Tables};
use std::collections::{BTreeMap, BTreeSet};

impl Machine {
    /// The state as tables, each record in its place.
    pub fn tables(&self) -> Tables {
        let mut rows = vec![None; ROWS];
        let mut sessions = vec![None; SESSIONS];
        for (&number, session) in &self.sessions {
            let Session { place, standing, count, .. } = *session;
            sessions[place] = Some(SessionRecord { number, standing, count });
            for (&key, row) in &session.rows {
                let Row { place, kind, staged } = *row;
                rows[place] = Some(RowRecord { session: number, key, kind, staged });
            }
        }
        let record = |key: &Key| KeyRecord { value: key.value, lease: key.lease };
        Tables {
            clock: self.clock,
            read_lifetime: self.read_lifetime,
            write_lifetime: self.write_lifetime,
            next_session: self.next_session,
            next_token: self.next_token,
            keys: self.keys.iter().map(record).collect(),
            rows,
            sessions,
        }
    }

    /// The machine in the state that sound tables say.
    pub fn of_tables(tables: &Tables) -> Machine {
        let mut machine = Machine {
            clock: tables.clock,
            read_lifetime: tables.read_lifetime,
            write_lifetime: tables.write_lifetime,
            next_session: tables.next_session,
            next_token: tables.next_token,
            keys: tables.keys.iter().map(key_of).collect(),
            sessions: BTreeMap::new(),
            deadlines: BTreeSet::new(),
            session_places: Places::all_free(SESSIONS),
            row_places: Places::all_free(ROWS),
        };
        for (key, record) in tables.keys.iter().enumerate() {
            if let Some(lease) = record.lease {
                machine.deadlines.insert((lease.deadline, Ends::Lease(key as u8)));
            }
        }
        machine.seat_sessions(tables);
        machine.seat_rows(tables);
        machine
    }

    fn seat_sessions(&mut self, tables: &Tables) {
        for (place, record) in tables.sessions.iter().enumerate() {
            let Some(SessionRecord { number, standing, count }) = *record else {
                continue;
            };
            if let Standing::Open { deadline } = standing {
                self.deadlines.insert((deadline, Ends::Session(number)));
            }
            self.session_places.take(place);
            let rows = BTreeMap::new();
            self.sessions.insert(number, Session { place, standing, count, rows });
        }
    }

    fn seat_rows(&mut self, tables: &Tables) {
        for (place, record) in tables.rows.iter().enumerate() {
            let Some(RowRecord { session, key, kind, staged }) = *record else {
                continue;
            };
            self.row_places.take(place);
            self.keys[usize::from(key)].holders.insert(session);
            if let Some(session) = self.sessions.get_mut(&session) {
                session.rows.insert(key, Row { place, kind, staged });
            }
        }
    }
}

fn key_of(record: &KeyRecord) -> Key {
    Key { value: record.value, lease: record.lease, holders: BTreeSet::new() }
}

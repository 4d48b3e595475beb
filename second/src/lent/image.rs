//! The tables to and from the lent bytes.
//!
//! `decode` takes any 65,536 bytes. What cannot be said in the tables it leaves out, so bytes that
//! `encode` does not give back are damaged.

use super::layout::*;
use crate::numbers::{STATE_BYTES, VALUE_BYTES};
use crate::tables::{KeyRecord, Lease, RowRecord, SessionRecord, Staged, Standing, Tables};
use crate::value::Value;

/// The tables that these bytes say.
pub fn decode(state: &Bytes) -> Tables {
    Tables {
        clock: u64_at(state, CLOCK),
        read_lifetime: u32_at(state, READ_LIFETIME),
        write_lifetime: u32_at(state, WRITE_LIFETIME),
        next_session: u32_at(state, NEXT_SESSION),
        next_token: u32_at(state, NEXT_TOKEN),
        keys: keys(state).iter().map(read_key).collect(),
        rows: rows(state).iter().map(read_row).collect(),
        sessions: sessions(state).iter().map(read_session).collect(),
    }
}

/// The bytes that say these tables; free rows and unused bytes are zero.
pub fn encode(tables: &Tables) -> Vec<u8> {
    let mut state: Box<Bytes> = Box::new([0; STATE_BYTES]);
    put_u64(&mut state[..], CLOCK, tables.clock);
    put_u32(&mut state[..], READ_LIFETIME, tables.read_lifetime);
    put_u32(&mut state[..], WRITE_LIFETIME, tables.write_lifetime);
    put_u32(&mut state[..], NEXT_SESSION, tables.next_session);
    put_u32(&mut state[..], NEXT_TOKEN, tables.next_token);
    for (bytes, record) in keys_mut(&mut state).iter_mut().zip(&tables.keys) {
        write_key(bytes, record);
    }
    for (bytes, record) in rows_mut(&mut state).iter_mut().zip(&tables.rows) {
        if let Some(record) = record {
            write_row(bytes, record);
        }
    }
    for (bytes, record) in sessions_mut(&mut state).iter_mut().zip(&tables.sessions) {
        if let Some(record) = record {
            write_session(bytes, record);
        }
    }
    state.to_vec()
}

/// A value of so many bytes from its field, never past the field.
fn read_value(field: &[u8], length: u8) -> Value {
    let length = usize::from(length).min(VALUE_BYTES);
    Value::of(&field[..length]).unwrap_or(Value::EMPTY)
}

fn read_key(bytes: &KeyBytes) -> KeyRecord {
    let value = match bytes[PRESENT] {
        1 => Some(read_value(&bytes[KEY_VALUE..], bytes[KEY_LENGTH])),
        _ => None,
    };
    let lease = match u32_at(bytes, TOKEN) {
        0 => None,
        token => Some(Lease { token, deadline: u64_at(bytes, LEASE_DEADLINE) }),
    };
    KeyRecord { value, lease }
}

fn write_key(bytes: &mut KeyBytes, record: &KeyRecord) {
    if let Some(value) = &record.value {
        bytes[PRESENT] = 1;
        bytes[KEY_LENGTH] = value.len() as u8;
        bytes[KEY_VALUE..KEY_VALUE + value.len()].copy_from_slice(value);
    }
    if let Some(lease) = &record.lease {
        put_u32(bytes, TOKEN, lease.token);
        put_u64(bytes, LEASE_DEADLINE, lease.deadline);
    }
}

fn read_row(bytes: &RowBytes) -> Option<RowRecord> {
    let staged = match bytes[ROW_STAGED] {
        VALUE => Staged::Value(read_value(&bytes[ROW_VALUE..], bytes[ROW_LENGTH])),
        DROP => Staged::Drop,
        _ => Staged::Nothing,
    };
    match u32_at(bytes, ROW_SESSION) {
        0 => None,
        session => Some(RowRecord {
            session,
            key: bytes[ROW_KEY],
            kind: u64::from(bytes[ROW_KIND]),
            staged,
        }),
    }
}

fn write_row(bytes: &mut RowBytes, record: &RowRecord) {
    put_u32(bytes, ROW_SESSION, record.session);
    bytes[ROW_KEY] = record.key;
    bytes[ROW_KIND] = record.kind as u8;
    match &record.staged {
        Staged::Nothing => bytes[ROW_STAGED] = NOTHING,
        Staged::Drop => bytes[ROW_STAGED] = DROP,
        Staged::Value(value) => {
            bytes[ROW_STAGED] = VALUE;
            bytes[ROW_LENGTH] = value.len() as u8;
            bytes[ROW_VALUE..ROW_VALUE + value.len()].copy_from_slice(value);
        }
    }
}

fn read_session(bytes: &SessionBytes) -> Option<SessionRecord> {
    let standing = match bytes[STANDING] {
        OPEN => Standing::Open { deadline: u64_at(bytes, SESSION_DEADLINE) },
        _ => Standing::Sealed,
    };
    match u32_at(bytes, NUMBER) {
        0 => None,
        number => Some(SessionRecord { number, standing, count: u16_at(bytes, COUNT) }),
    }
}

fn write_session(bytes: &mut SessionBytes, record: &SessionRecord) {
    put_u32(bytes, NUMBER, record.number);
    put_u16(bytes, COUNT, record.count);
    match record.standing {
        Standing::Open { deadline } => {
            bytes[STANDING] = OPEN;
            put_u64(bytes, SESSION_DEADLINE, deadline);
        }
        Standing::Sealed => bytes[STANDING] = SEALED,
    }
}

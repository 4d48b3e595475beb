//! The changes to a lent state that commands are made of. Whatever is freed becomes zero.

use super::layout::*;
use super::read::lives;
use crate::numbers::SESSIONS;

/// The key becomes absent; its I lease stays.
pub fn drop_value(state: &mut Bytes, key: u8) {
    let record = &mut keys_mut(state)[usize::from(key)];
    record[PRESENT] = 0;
    record[KEY_LENGTH] = 0;
    record[KEY_VALUE..].fill(0);
}

/// The value is cached; zero behind it.
pub fn cache_value(state: &mut Bytes, key: u8, value: &[u8]) {
    let record = &mut keys_mut(state)[usize::from(key)];
    record[PRESENT] = 1;
    record[KEY_LENGTH] = value.len() as u8;
    record[KEY_VALUE..KEY_VALUE + value.len()].copy_from_slice(value);
    record[KEY_VALUE + value.len()..].fill(0);
}

/// The key has this I lease; token 0 with deadline 0 is none.
pub fn set_lease(state: &mut Bytes, key: u8, token: u64, deadline: u64) {
    let record = &mut keys_mut(state)[usize::from(key)];
    put_u32(record, TOKEN, token);
    put_u64(record, LEASE_DEADLINE, deadline);
}

/// The row stages this value; zero behind it.
pub fn stage_value(row: &mut RowBytes, value: &[u8]) {
    row[ROW_STAGED] = VALUE;
    row[ROW_LENGTH] = value.len() as u8;
    row[ROW_VALUE..ROW_VALUE + value.len()].copy_from_slice(value);
    row[ROW_VALUE + value.len()..].fill(0);
}

/// The row stages DROP.
pub fn stage_drop(row: &mut RowBytes) {
    row[ROW_STAGED] = DROP;
    row[ROW_LENGTH] = 0;
    row[ROW_VALUE..].fill(0);
}

/// The session's rows are freed and it ends; cached values stay.
pub fn end_session(state: &mut Bytes, place: usize) {
    let session = u32_at(&sessions(state)[place], NUMBER);
    for row in rows_mut(state).iter_mut() {
        if u32_at(row, ROW_SESSION) == session {
            row.fill(0);
        }
    }
    sessions_mut(state)[place].fill(0);
}

/// What every accepted command does first: expiry, and the clock.
pub fn accept(state: &mut Bytes, now: u64) {
    sweep_leases(state, now);
    sweep_sessions(state, now);
    put_u64(state, CLOCK, now);
}

/// Every I lease with a deadline at or before now is removed.
fn sweep_leases(state: &mut Bytes, now: u64) {
    for record in keys_mut(state) {
        if u32_at(record, TOKEN) != 0 && u64_at(record, LEASE_DEADLINE) <= now {
            put_u32(record, TOKEN, 0);
            put_u64(record, LEASE_DEADLINE, 0);
        }
    }
}

/// Every open session with a deadline at or before now ends: the values of its keys are dropped,
/// its rows freed.
fn sweep_sessions(state: &mut Bytes, now: u64) {
    let mut ended = [0u32; SESSIONS];
    let mut count = 0;
    for record in sessions_mut(state) {
        let number = u32_at(record, NUMBER) as u32;
        if number != 0 && !lives(record, now) {
            ended[count] = number;
            count += 1;
            record.fill(0);
        }
    }
    if count > 0 {
        free_rows_and_values(state, &ended[..count]);
    }
}

/// Frees every row of these sessions and makes its key absent.
fn free_rows_and_values(state: &mut Bytes, ended: &[u32]) {
    for place in 0..rows(state).len() {
        let row = &mut rows_mut(state)[place];
        let session = u32_at(row, ROW_SESSION) as u32;
        if session != 0 && ended.contains(&session) {
            let key = row[ROW_KEY];
            row.fill(0);
            drop_value(state, key);
        }
    }
}

//! Reading a well-formed lent state: finding records by their numbers, and what of the state stands
//! once everything with a deadline at or before now has ended. Refusals are decided on the latter
//! by reading alone, since a refused command keeps nothing of expiry.

use super::layout::*;
use crate::answer::refusal;
use crate::decision::Held;

/// The place of the session of this number; 0, which free records have, is none.
pub fn place_of(state: &Bytes, session: u64) -> Option<usize> {
    if session == 0 {
        return None;
    }
    sessions(state).iter().position(|record| u32_at(record, NUMBER) == session)
}

/// Whether the session is still live at now: sealed, or open with a deadline after it.
pub fn lives(record: &SessionBytes, now: u64) -> bool {
    record[STANDING] == SEALED || record[STANDING] == OPEN && u64_at(record, SESSION_DEADLINE) > now
}

/// Whether a live session ends by now.
fn any_ends(state: &Bytes, now: u64) -> bool {
    sessions(state).iter().any(|record| u32_at(record, NUMBER) != 0 && !lives(record, now))
}

/// The place of a session that is live after expiry, or NO SESSION.
pub fn live_place(state: &Bytes, now: u64, session: u64) -> Result<usize, u64> {
    match place_of(state, session) {
        Some(place) if lives(&sessions(state)[place], now) => Ok(place),
        _ => Err(refusal::NO_SESSION),
    }
}

/// The place of the session's own Q row on the key.
pub fn own_row(state: &Bytes, session: u64, key: u8) -> Option<usize> {
    if session == 0 {
        return None;
    }
    let own = |row: &RowBytes| u32_at(row, ROW_SESSION) == session && row[ROW_KEY] == key;
    rows(state).iter().position(own)
}

/// Whether a session has this Q row.
pub fn is_taken(row: &RowBytes) -> bool {
    u32_at(row, ROW_SESSION) != 0
}

/// The Q rows on a key.
pub fn rows_on(state: &Bytes, key: u8) -> impl Iterator<Item = &RowBytes> {
    rows(state).iter().filter(move |row| row[ROW_KEY] == key && is_taken(row))
}

/// The record of the session that a taken row names.
pub fn session_of<'a>(state: &'a Bytes, row: &RowBytes) -> Option<&'a SessionBytes> {
    place_of(state, u32_at(row, ROW_SESSION)).map(|place| &sessions(state)[place])
}

/// Whether a taken row is still there after expiry.
fn stays(state: &Bytes, now: u64, row: &RowBytes) -> bool {
    session_of(state, row).is_some_and(|session| lives(session, now))
}

/// Whether the key's I lease is there and stands after now.
fn leased(record: &KeyBytes, now: u64) -> bool {
    u32_at(record, TOKEN) != 0 && u64_at(record, LEASE_DEADLINE) > now
}

/// What is held on the key after expiry. All rows on one key are of one kind.
pub fn held(state: &Bytes, now: u64, key: u8) -> Held {
    if let Some(row) = rows_on(state, key).find(|row| stays(state, now, row)) {
        return Held::row(u64::from(row[ROW_KIND]));
    }
    match leased(&keys(state)[usize::from(key)], now) {
        true => Held::I,
        false => Held::None,
    }
}

/// Whether the key has a cached value after expiry: a session that ends takes the values of its
/// keys.
pub fn is_cached(state: &Bytes, now: u64, key: u8) -> bool {
    keys(state)[usize::from(key)][PRESENT] == 1
        && rows_on(state, key).all(|row| stays(state, now, row))
}

/// Whether every session record is taken after expiry.
pub fn sessions_full(state: &Bytes, now: u64) -> bool {
    sessions(state).iter().all(|record| lives(record, now))
}

/// Whether every Q row is taken after expiry.
pub fn rows_full(state: &Bytes, now: u64) -> bool {
    rows(state).iter().all(is_taken)
        && (!any_ends(state, now) || rows(state).iter().all(|row| stays(state, now, row)))
}

/// How long what blocks the key lasts: 0 if a sealed session does, else the latest deadline less
/// now. The state has been swept, so every deadline is after now.
pub fn wait(state: &Bytes, now: u64, key: u8) -> u64 {
    let mut latest = u64_at(&keys(state)[usize::from(key)], LEASE_DEADLINE);
    for session in rows_on(state, key).filter_map(|row| session_of(state, row)) {
        if session[STANDING] == SEALED {
            return 0;
        }
        latest = latest.max(u64_at(session, SESSION_DEADLINE));
    }
    latest.saturating_sub(now)
}

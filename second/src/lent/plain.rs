//! The well-formed check said slowly, condition by condition as the document lists them. The quick
//! check is tested against it.

use super::image::{decode, encode};
use super::layout::Bytes;
use crate::numbers::*;
use crate::tables::{Staged, Standing, Tables};

/// Whether these bytes are a well-formed state: of the right length, exactly what `encode` writes
/// for their tables, and the tables sound.
pub fn well_formed_plain(state: &[u8]) -> bool {
    let Ok(bytes) = <&Bytes>::try_from(state) else {
        return false;
    };
    let tables = decode(bytes);
    encode(&tables) == state && sound(&tables)
}

/// The document's conditions on the state and its numbers.
pub fn sound(tables: &Tables) -> bool {
    tables.clock <= LAST_TIME
        && is_lifetime(tables.read_lifetime)
        && is_lifetime(tables.write_lifetime)
        && (1..=NUMBERS_END).contains(&tables.next_session)
        && (1..=NUMBERS_END).contains(&tables.next_token)
        && leases_sound(tables)
        && sessions_sound(tables)
        && rows_sound(tables)
        && rows_agree(tables)
}

/// Tokens distinct and below the next, deadlines at most the clock plus the read lifetime.
fn leases_sound(tables: &Tables) -> bool {
    let leases: Vec<_> = tables.keys.iter().filter_map(|key| key.lease).collect();
    let latest = tables.clock + tables.read_lifetime;
    leases.iter().all(|lease| lease.token < tables.next_token && lease.deadline <= latest)
        && all_pairs(&leases, |a, b| a.token != b.token)
}

/// Numbers distinct and below the next, counts at most 1,000, deadlines at most the clock plus the
/// write lifetime.
fn sessions_sound(tables: &Tables) -> bool {
    let sessions: Vec<_> = tables.sessions.iter().flatten().collect();
    let latest = tables.clock + tables.write_lifetime;
    sessions.iter().all(|session| {
        let in_time = match session.standing {
            Standing::Open { deadline } => deadline <= latest,
            Standing::Sealed => true,
        };
        in_time && session.number < tables.next_session && session.count <= MOST_STEPS
    }) && all_pairs(&sessions, |a, b| a.number != b.number)
}

/// Each row by itself: its kind, what it may stage, a live session, and no I lease on its key.
fn rows_sound(tables: &Tables) -> bool {
    tables.rows.iter().flatten().all(|row| {
        let may_stage = match row.staged {
            Staged::Nothing => true,
            Staged::Value(_) => row.kind != INVALIDATE,
            Staged::Drop => row.kind == INCREMENTAL,
        };
        may_stage
            && (INVALIDATE..=INCREMENTAL).contains(&row.kind)
            && tables.sessions.iter().flatten().any(|session| session.number == row.session)
            && tables.keys[usize::from(row.key)].lease.is_none()
    })
}

/// Two rows on one key are both of kind 1 and of two sessions.
fn rows_agree(tables: &Tables) -> bool {
    let rows: Vec<_> = tables.rows.iter().flatten().collect();
    all_pairs(&rows, |a, b| {
        a.key != b.key || (a.kind == INVALIDATE && b.kind == INVALIDATE && a.session != b.session)
    })
}

/// Whether the relation holds of every two items in different places.
fn all_pairs<T>(items: &[T], related: impl Fn(&T, &T) -> bool) -> bool {
    items.iter().enumerate().all(|(i, a)| items[..i].iter().all(|b| related(a, b)))
}

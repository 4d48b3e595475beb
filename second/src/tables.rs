//! The state as plain tables: every record in its place. The machine's own structures and the lent
//! bytes meet here, and the slow check reads its conditions off it.

use crate::value::Value;

/// Everything that the state holds. `keys` has 256 records, `rows` 384, `sessions` 128.
#[derive(Clone, Debug, PartialEq, Eq)]
pub struct Tables {
    pub clock: u64,
    pub read_lifetime: u64,
    pub write_lifetime: u64,
    pub next_session: u64,
    pub next_token: u64,
    pub keys: Vec<KeyRecord>,
    pub rows: Vec<Option<RowRecord>>,
    pub sessions: Vec<Option<SessionRecord>>,
}

/// A key: its cached value, or absent, and its I lease.
#[derive(Clone, Copy, Debug, Default, PartialEq, Eq)]
pub struct KeyRecord {
    pub value: Option<Value>,
    pub lease: Option<Lease>,
}

/// An I lease.
#[derive(Clone, Copy, Debug, PartialEq, Eq)]
pub struct Lease {
    pub token: u64,
    pub deadline: u64,
}

/// A Q row: session, key, kind, and what is staged.
#[derive(Clone, Copy, Debug, PartialEq, Eq)]
pub struct RowRecord {
    pub session: u64,
    pub key: u8,
    pub kind: u64,
    pub staged: Staged,
}

/// What a Q row has staged.
#[derive(Clone, Copy, Debug, PartialEq, Eq)]
pub enum Staged {
    Nothing,
    Value(Value),
    Drop,
}

/// A session: its number, how it stands, and its count of staging steps.
#[derive(Clone, Copy, Debug, PartialEq, Eq)]
pub struct SessionRecord {
    pub number: u64,
    pub standing: Standing,
    pub count: u64,
}

/// Open until a deadline, or sealed with none.
#[derive(Clone, Copy, Debug, PartialEq, Eq)]
pub enum Standing {
    Open { deadline: u64 },
    Sealed,
}

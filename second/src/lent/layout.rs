//! The layout of the 65,536 bytes: where each record stands, and its numbers, little-endian.
//!
//! ```text
//!      0  header, 64 bytes
//!     64  256 keys of 80
//! 20,544  384 Q rows of 72
//! 48,192  128 sessions of 16
//! 50,240  zero to the end
//! ```

use crate::numbers::{KEYS, ROWS, SESSIONS, STATE_BYTES, VALUE_BYTES};

/// A state of the right length.
pub type Bytes = [u8; STATE_BYTES];

pub const CLOCK: usize = 0;
pub const READ_LIFETIME: usize = 8;
pub const WRITE_LIFETIME: usize = 12;
pub const NEXT_SESSION: usize = 16;
pub const NEXT_TOKEN: usize = 20;
pub const HEADER_USED: usize = 24;

pub const KEYS_AT: usize = 64;
pub const KEY_BYTES: usize = 80;
pub const PRESENT: usize = 0;
pub const KEY_LENGTH: usize = 1;
pub const KEY_UNUSED: usize = 2;
pub const TOKEN: usize = 4;
pub const LEASE_DEADLINE: usize = 8;
pub const KEY_VALUE: usize = 16;

pub const ROWS_AT: usize = KEYS_AT + KEYS * KEY_BYTES;
pub const ROW_BYTES: usize = 72;
pub const ROW_SESSION: usize = 0;
pub const ROW_KEY: usize = 4;
pub const ROW_KIND: usize = 5;
pub const ROW_STAGED: usize = 6;
pub const ROW_LENGTH: usize = 7;
pub const ROW_VALUE: usize = 8;

/// What byte `ROW_STAGED` says.
pub const NOTHING: u8 = 0;
pub const VALUE: u8 = 1;
pub const DROP: u8 = 2;

pub const SESSIONS_AT: usize = ROWS_AT + ROWS * ROW_BYTES;
pub const SESSION_BYTES: usize = 16;
pub const NUMBER: usize = 0;
pub const STANDING: usize = 4;
pub const SESSION_UNUSED: usize = 5;
pub const COUNT: usize = 6;
pub const SESSION_DEADLINE: usize = 8;

/// What byte `STANDING` says.
pub const OPEN: u8 = 1;
pub const SEALED: u8 = 2;

pub const REST_AT: usize = SESSIONS_AT + SESSIONS * SESSION_BYTES;

/// A key's record, by its bytes.
pub type KeyBytes = [u8; KEY_BYTES];
/// A Q row, by its bytes.
pub type RowBytes = [u8; ROW_BYTES];
/// A session, by its bytes.
pub type SessionBytes = [u8; SESSION_BYTES];

/// The bytes of a value's field.
pub type ValueBytes = [u8; VALUE_BYTES];

/// Where the cached value of a key stands.
pub fn cached_at(key: u8) -> usize {
    KEYS_AT + key as usize * KEY_BYTES + KEY_VALUE
}

/// Where the staged value of the Q row in this place stands.
pub fn staged_at(place: usize) -> usize {
    ROWS_AT + place * ROW_BYTES + ROW_VALUE
}

/// All key records.
pub fn keys(state: &Bytes) -> &[KeyBytes] {
    state[KEYS_AT..ROWS_AT].as_chunks().0
}

pub fn keys_mut(state: &mut Bytes) -> &mut [KeyBytes] {
    state[KEYS_AT..ROWS_AT].as_chunks_mut().0
}

/// All Q rows, free ones too.
pub fn rows(state: &Bytes) -> &[RowBytes] {
    state[ROWS_AT..SESSIONS_AT].as_chunks().0
}

pub fn rows_mut(state: &mut Bytes) -> &mut [RowBytes] {
    state[ROWS_AT..SESSIONS_AT].as_chunks_mut().0
}

/// All session records, free ones too.
pub fn sessions(state: &Bytes) -> &[SessionBytes] {
    state[SESSIONS_AT..REST_AT].as_chunks().0
}

pub fn sessions_mut(state: &mut Bytes) -> &mut [SessionBytes] {
    state[SESSIONS_AT..REST_AT].as_chunks_mut().0
}

/// The number of 16 bits at this place of a record.
pub fn u16_at(bytes: &[u8], at: usize) -> u64 {
    u64::from(u16::from_le_bytes([bytes[at], bytes[at + 1]]))
}

/// The number of 32 bits at this place of a record.
pub fn u32_at(bytes: &[u8], at: usize) -> u64 {
    match bytes[at..].first_chunk() {
        Some(chunk) => u64::from(u32::from_le_bytes(*chunk)),
        None => 0,
    }
}

/// The number of 64 bits at this place of a record.
pub fn u64_at(bytes: &[u8], at: usize) -> u64 {
    match bytes[at..].first_chunk() {
        Some(chunk) => u64::from_le_bytes(*chunk),
        None => 0,
    }
}

pub fn put_u16(bytes: &mut [u8], at: usize, number: u64) {
    bytes[at..at + 2].copy_from_slice(&(number as u16).to_le_bytes());
}

pub fn put_u32(bytes: &mut [u8], at: usize, number: u64) {
    bytes[at..at + 4].copy_from_slice(&(number as u32).to_le_bytes());
}

pub fn put_u64(bytes: &mut [u8], at: usize, number: u64) {
    bytes[at..at + 8].copy_from_slice(&number.to_le_bytes());
}

//! The document's numbers, each once.

/// Bytes of the lent state.
pub const STATE_BYTES: usize = 65_536;
/// Keys are 0 to 255.
pub const KEYS: usize = 256;
/// Sessions that can be live at once.
pub const SESSIONS: usize = 128;
/// Q rows that can be held at once.
pub const ROWS: usize = 384;
/// The longest value or operand that is accepted.
pub const VALUE_BYTES: usize = 64;
/// The last time a clock can show, in ms.
pub const LAST_TIME: u64 = (1 << 48) - 1;
/// A lifetime is 1 to this many ms.
pub const LONGEST_LIFETIME: u64 = 600_000;
/// A session's count of staging steps is 0 to this.
pub const MOST_STEPS: u64 = 1_000;
/// A next number may stand here, and then no number is left to give.
pub const NUMBERS_END: u64 = (1 << 32) - 1;

/// Kind 1: the register writes, the cached value goes.
pub const INVALIDATE: u64 = 1;
/// Kind 2: the new value is staged whole.
pub const REFRESH: u64 = 2;
/// Kind 3: the new value is staged by operations on the old one.
pub const INCREMENTAL: u64 = 3;

/// Operations of DELTA.
pub const APPEND: u64 = 1;
pub const PREPEND: u64 = 2;
pub const INCREMENT: u64 = 3;
pub const DECREMENT: u64 = 4;

/// Whether a lifetime may be given to START or stand in a state.
pub fn is_lifetime(ms: u64) -> bool {
    (1..=LONGEST_LIFETIME).contains(&ms)
}

//! The well-formed check, one pass over each table.
//!
//! Every command runs it on the whole state, so it decides the speed. A free record is told by an
//! `or` over its words; the values of the key records are judged without a branch, since which keys
//! are cached is hard to guess. Three small tables on the stack answer what pairs of records would:
//! whether a token came before, in which place a session number stands, and which sessions hold a
//! key.

use super::layout::*;
use crate::numbers::*;

/// Whether these bytes are a well-formed state.
pub fn well_formed(state: &[u8]) -> bool {
    match <&Bytes>::try_from(state) {
        Ok(state) => fits(state),
        Err(_) => false,
    }
}

/// Whether these bytes, of the right length, are a well-formed state.
pub fn fits(state: &Bytes) -> bool {
    let mut seats = Seats::empty();
    header_fits(state)
        && is_zero(&state[REST_AT..])
        && sessions_fit(state, &mut seats)
        && keys_fit(state)
        && rows_fit(state, &seats)
}

/// The clock, the lifetimes, the next numbers, and nothing behind them.
fn header_fits(state: &Bytes) -> bool {
    let next_numbers = 1..=NUMBERS_END;
    u64_at(state, CLOCK) <= LAST_TIME
        && is_lifetime(u32_at(state, READ_LIFETIME))
        && is_lifetime(u32_at(state, WRITE_LIFETIME))
        && next_numbers.contains(&u32_at(state, NEXT_SESSION))
        && next_numbers.contains(&u32_at(state, NEXT_TOKEN))
        && is_zero(&state[HEADER_USED..KEYS_AT])
}

/// Whether every byte is zero (the length is a multiple of 8).
fn is_zero(bytes: &[u8]) -> bool {
    bytes.as_chunks().0.iter().fold(0, |sum, word| sum | u64::from_le_bytes(*word)) == 0
}

/// Zero for the bytes of a value, ones for those behind it: the field of a value of length n has
/// its mask from 64 - n on.
const BEHIND: [u8; 2 * VALUE_BYTES] = {
    let mut mask = [0; 2 * VALUE_BYTES];
    let mut at = VALUE_BYTES;
    while at < mask.len() {
        mask[at] = 0xff;
        at += 1;
    }
    mask
};

/// The bytes of the field behind a value of this length, put together: zero if they all are.
fn behind(field: &ValueBytes, length: usize) -> u64 {
    let from = VALUE_BYTES - length.min(VALUE_BYTES);
    let mask = BEHIND[from..from + VALUE_BYTES].as_chunks::<8>().0;
    let words = field.as_chunks::<8>().0;
    let pairs = words.iter().zip(mask);
    pairs.fold(0, |sum, (a, b)| sum | (u64::from_le_bytes(*a) & u64::from_le_bytes(*b)))
}

/// The value's field of a record.
fn field(record: &[u8], at: usize) -> &ValueBytes {
    match record[at..].first_chunk() {
        Some(field) => field,
        None => &[0; VALUE_BYTES],
    }
}

/// Each key record by itself, and tokens distinct.
fn keys_fit(state: &Bytes) -> bool {
    let next_token = u32_at(state, NEXT_TOKEN);
    let latest = u64_at(state, CLOCK) + u32_at(state, READ_LIFETIME);
    let mut tokens = Sieve::empty();
    let mut fits = true;
    for record in keys(state) {
        let present = record[PRESENT];
        let length = record[KEY_LENGTH];
        let token = u32_at(record, TOKEN);
        let deadline = u64_at(record, LEASE_DEADLINE);
        fits &= present <= 1 && usize::from(length) <= VALUE_BYTES * usize::from(present & 1);
        fits &= u16_at(record, KEY_UNUSED) == 0;
        fits &= behind(field(record, KEY_VALUE), usize::from(length)) == 0;
        fits &= token < next_token;
        fits &= deadline <= if token == 0 { 0 } else { latest };
        if token != 0 {
            tokens.add(token);
        }
    }
    fits && (tokens.told_apart() || tokens_differ(state))
}

/// Tells distinct tokens apart by their low bits: each marks one bit, and a bit marked twice leaves
/// the question open.
struct Sieve {
    marked: [u64; Sieve::WORDS],
    twice: u64,
}

impl Sieve {
    const WORDS: usize = 64;

    fn empty() -> Sieve {
        Sieve { marked: [0; Sieve::WORDS], twice: 0 }
    }

    /// Marks the token's bit.
    fn add(&mut self, token: u64) {
        let word = &mut self.marked[(token >> 6) as usize % Sieve::WORDS];
        let bit = 1 << (token & 63);
        self.twice |= *word & bit;
        *word |= bit;
    }

    fn told_apart(&self) -> bool {
        self.twice == 0
    }
}

/// Whether the tokens are distinct, by sorting them.
fn tokens_differ(state: &Bytes) -> bool {
    let mut tokens = [0; KEYS];
    for (token, record) in tokens.iter_mut().zip(keys(state)) {
        *token = u32_at(record, TOKEN) as u32;
    }
    tokens.sort_unstable();
    tokens.windows(2).all(|pair| pair[0] == 0 || pair[0] != pair[1])
}

/// In which place each session number stands. A number has the slot of its low bits; those that
/// find it taken stand in the crowd, which is sorted once all are seated.
struct Seats {
    numbers: [u32; Seats::SLOTS],
    places: [u8; Seats::SLOTS],
    crowd: [(u32, u8); SESSIONS],
    crowded: usize,
}

impl Seats {
    /// Eight times the sessions, so that a crowd is rare.
    const SLOTS: usize = 8 * SESSIONS;

    fn empty() -> Seats {
        Seats {
            numbers: [0; Seats::SLOTS],
            places: [0; Seats::SLOTS],
            crowd: [(0, 0); SESSIONS],
            crowded: 0,
        }
    }

    /// Seats a number that is not 0; false if its slot has that number already.
    fn add(&mut self, number: u32, place: usize) -> bool {
        let slot = number as usize % Seats::SLOTS;
        if self.numbers[slot] == 0 {
            self.numbers[slot] = number;
            self.places[slot] = place as u8;
            return true;
        }
        self.crowd[self.crowded] = (number, place as u8);
        self.crowded += 1;
        self.numbers[slot] != number
    }

    /// Sorts the crowd; false if a number is in it twice.
    fn close(&mut self) -> bool {
        let crowd = &mut self.crowd[..self.crowded];
        crowd.sort_unstable();
        crowd.windows(2).all(|pair| pair[0].0 != pair[1].0)
    }

    /// The place of a number that is not 0.
    fn find(&self, number: u32) -> Option<u8> {
        let slot = number as usize % Seats::SLOTS;
        if self.numbers[slot] == number {
            return Some(self.places[slot]);
        }
        let crowd = &self.crowd[..self.crowded];
        let at = crowd.binary_search_by_key(&number, |seat| seat.0).ok()?;
        Some(crowd[at].1)
    }
}

/// Each session record by itself, numbers distinct; seats them.
fn sessions_fit(state: &Bytes, seats: &mut Seats) -> bool {
    let next_session = u32_at(state, NEXT_SESSION);
    let latest = u64_at(state, CLOCK) + u32_at(state, WRITE_LIFETIME);
    for (place, record) in sessions(state).iter().enumerate() {
        let number = u32_at(record, NUMBER);
        let deadline = u64_at(record, SESSION_DEADLINE);
        if u64_at(record, NUMBER) | deadline == 0 {
            continue;
        }
        let stands = match record[STANDING] {
            OPEN => deadline <= latest,
            SEALED => deadline == 0,
            _ => false,
        };
        let fits = stands
            && number != 0
            && number < next_session
            && record[SESSION_UNUSED] == 0
            && u16_at(record, COUNT) <= MOST_STEPS;
        if !fits || !seats.add(number as u32, place) {
            return false;
        }
    }
    seats.close()
}

/// Each Q row by itself, and against the rows before it on its key.
fn rows_fit(state: &Bytes, seats: &Seats) -> bool {
    let mut holders = [0u128; KEYS];
    for record in rows(state) {
        let session = u32_at(record, ROW_SESSION) as u32;
        if session == 0 {
            if !is_zero(record) {
                return false;
            }
            continue;
        }
        let Some(place) = seats.find(session) else {
            return false;
        };
        let key = record[ROW_KEY];
        let alone = record[ROW_KIND] != INVALIDATE as u8;
        if !row_fits(record)
            || u32_at(&keys(state)[usize::from(key)], TOKEN) != 0
            || !joins(&mut holders[usize::from(key)], place, alone)
        {
            return false;
        }
    }
    true
}

/// A taken row by itself: its kind, what it may stage, and nothing behind a staged value.
fn row_fits(record: &RowBytes) -> bool {
    let kind = u64::from(record[ROW_KIND]);
    let length = usize::from(record[ROW_LENGTH]);
    let longest = match (record[ROW_STAGED], kind) {
        (NOTHING, INVALIDATE | REFRESH | INCREMENTAL) => 0,
        (VALUE, REFRESH | INCREMENTAL) => VALUE_BYTES,
        (DROP, INCREMENTAL) => 0,
        _ => return false,
    };
    length <= longest && behind(field(record, ROW_VALUE), length) == 0
}

/// Adds the session in this place to those that hold a key, a bit each; false if the row may not
/// stand there. A row that has to be alone takes all the bits.
fn joins(holders: &mut u128, place: u8, alone: bool) -> bool {
    let bits = if alone { u128::MAX } else { 1 << place };
    let free = *holders & bits == 0;
    *holders |= bits;
    free
}

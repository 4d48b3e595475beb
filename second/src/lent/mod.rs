//! The cache on a lent state of 65,536 bytes: the whole check before each command, and nothing kept
//! elsewhere.

mod act;
mod check;
mod image;
pub mod layout;
mod plain;
pub mod read;
mod write;

pub use check::well_formed;
pub use image::{decode, encode};
pub use plain::{sound, well_formed_plain};

use crate::answer::{refusal, Answer};
use crate::command::{is_key, Command};
use crate::numbers::{is_lifetime, LAST_TIME};
use layout::Bytes;

/// START: makes the fresh state, clock 0, whatever the buffer held: READY, or STATE where the
/// length is wrong, or ARG.
pub fn start(state: &mut [u8], read_lifetime: u64, write_lifetime: u64) -> Answer {
    let Ok(state) = <&mut Bytes>::try_from(state) else {
        return Answer::Refused(refusal::STATE);
    };
    if !is_lifetime(read_lifetime) || !is_lifetime(write_lifetime) {
        return Answer::Refused(refusal::ARG);
    }
    state.fill(0);
    layout::put_u32(state, layout::READ_LIFETIME, read_lifetime);
    layout::put_u32(state, layout::WRITE_LIFETIME, write_lifetime);
    layout::put_u32(state, layout::NEXT_SESSION, 1);
    layout::put_u32(state, layout::NEXT_TOKEN, 1);
    Answer::Ready
}

/// Runs a command at now. The value stands beside it; commands without one look at none. A refused
/// command leaves every byte as it came.
pub fn run(state: &mut [u8], now: u64, command: Command, value: &[u8]) -> Answer {
    let Some(state) = checked(state) else {
        return Answer::Refused(refusal::STATE);
    };
    if now < layout::u64_at(state, layout::CLOCK) || now > LAST_TIME {
        return Answer::Refused(refusal::CLOCK);
    }
    if let Some(number) = command.refusal(value) {
        return Answer::Refused(number);
    }
    act::act(state, now, command, value).unwrap_or_else(Answer::Refused)
}

/// The state, if it is well formed.
fn checked(state: &mut [u8]) -> Option<&mut Bytes> {
    let state = <&mut Bytes>::try_from(state).ok()?;
    check::fits(state).then_some(state)
}

/// SHOW, the call that answers: VALUE with the length, NONE, or the refusal.
pub fn show(state: &[u8], session: u64, key: u64) -> Answer {
    match find(state, session, key) {
        Ok(Some((_, length))) => Answer::Value(length as u64),
        Ok(None) => Answer::None,
        Err(number) => Answer::Refused(number),
    }
}

/// SHOW, the call that gives the stretch alone: the value's part of the state; for NONE and on a
/// refusal the empty stretch at the state's first byte.
pub fn stretch(state: &[u8], session: u64, key: u64) -> &[u8] {
    match find(state, session, key) {
        Ok(Some((at, length))) => &state[at..at + length],
        _ => &state[..0],
    }
}

/// Where the value that SHOW means stands, or the first refusal of STATE, ARG, NO SESSION.
fn find(state: &[u8], session: u64, key: u64) -> Result<Option<act::Stretch>, u64> {
    let state = <&Bytes>::try_from(state).map_err(|_| refusal::STATE)?;
    if !check::fits(state) {
        return Err(refusal::STATE);
    }
    if !is_key(key) {
        return Err(refusal::ARG);
    }
    act::shown(state, session, key as u8)
}

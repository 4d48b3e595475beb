//! The second program as the fuzzing target sees it: the functions of include/basalekko.h under the prefix `second_`.

use second::lent;
use second::{Answer, Command};
use std::slice::{from_raw_parts, from_raw_parts_mut};

/// The words by their numbers in the header.
const WORDS: [&str; 24] = [
    "REFUSED", "READY", "SESSION", "HIT", "ASK", "BACKOFF", "LEASE", "STORED", "IGNORED", "HELD", "GRANTED", "ABORTED", "STAGED",
    "REPEATED", "DROPPED", "VALIDATED", "LOST", "DONE", "UNDONE", "EVICTED", "EMPTY", "TICKED", "VALUE", "NONE",
];

const ARG: u64 = 3;

/// The word's number; what goes with it and a HIT's place are told.
unsafe fn tell(answer: Answer, told: *mut u64) -> u64 {
    let (detail, place) = match answer {
        Answer::Hit { at, length } => (length, at),
        other => (other.detail().unwrap_or(0), 0),
    };
    *told = detail;
    *told.add(1) = place;
    WORDS.iter().position(|word| *word == answer.word()).expect("each answer has a word") as u64
}

/// A number outside the list is refused as ARG where TICK would not be refused.
fn unknown(state: &[u8], time: u64) -> Answer {
    match lent::run(&mut state.to_vec(), time, Command::Tick, b"") {
        Answer::Ticked => Answer::Refused(ARG),
        refused => refused,
    }
}

/// # Safety
/// As for the function of the header.
#[no_mangle]
pub unsafe extern "C" fn second_well_formed(state: *const u8, length: usize) -> bool {
    lent::well_formed(from_raw_parts(state, length))
}

/// # Safety
/// As for the function of the header.
#[no_mangle]
pub unsafe extern "C" fn second_start(state: *mut u8, length: usize, read: u64, write: u64, told: *mut u64) -> u64 {
    tell(lent::start(from_raw_parts_mut(state, length), read, write), told)
}

/// # Safety
/// As for the function of the header, and the value's pointer is never null.
#[no_mangle]
pub unsafe extern "C" fn second_run(
    state: *mut u8, length: usize, time: u64, number: u64, a: u64, b: u64, c: u64, d: u64,
    value: *const u8, value_length: usize, told: *mut u64,
) -> u64 {
    let state = from_raw_parts_mut(state, length);
    let answer = match Command::of(number, [a, b, c, d]) {
        Some(command) => lent::run(state, time, command, from_raw_parts(value, value_length)),
        None => unknown(state, time),
    };
    tell(answer, told)
}

/// # Safety
/// As for the function of the header.
#[no_mangle]
pub unsafe extern "C" fn second_show(state: *const u8, length: usize, session: u64, key: u64, told: *mut u64) -> u64 {
    tell(lent::show(from_raw_parts(state, length), session, key), told)
}

/// # Safety
/// As for the function of the header.
#[no_mangle]
pub unsafe extern "C" fn second_stretch(state: *const u8, length: usize, session: u64, key: u64, told: *mut u64) {
    let state = from_raw_parts(state, length);
    let stretch = lent::stretch(state, session, key);
    *told = stretch.len() as u64;
    *told.add(1) = stretch.as_ptr() as u64 - state.as_ptr() as u64;
}

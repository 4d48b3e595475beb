//! The commands on a well-formed lent state. Each first decides its refusals by reading, then is
//! accepted (expiry and the clock), then acts on the swept state.

use super::layout::*;
use super::read::{self, live_place, own_row, place_of};
use super::write::{
    accept, cache_value, drop_value, end_session, set_lease, stage_drop, stage_value,
};
use crate::answer::{refusal, Answer};
use crate::command::Command;
use crate::count;
use crate::decision::{asking_i, asking_q, Decision};
use crate::numbers::{INCREMENTAL, INVALIDATE, NUMBERS_END, REFRESH};
use crate::value::Value;

/// A command's answer, or the number of its refusal.
type Outcome = Result<Answer, u64>;

/// Runs a command whose numbers and value are in range, at a time that the clock accepts.
pub fn act(state: &mut Bytes, now: u64, command: Command, value: &[u8]) -> Outcome {
    match command {
        Command::Begin => begin(state, now),
        Command::Get { session, key } => get(state, now, session, key as u8),
        Command::Fill { token, key } => Ok(fill(state, now, token, key as u8, value)),
        Command::Quar { session, key, kind } => quar(state, now, session, key as u8, kind),
        Command::Stage { session, step, key } => {
            let step = staging(state, now, session, step, key as u8, REFRESH)?;
            Ok(staged(state, now, step, |_, _| Value::of(value)))
        }
        Command::Delta { session, step, key, operation } => {
            let step = staging(state, now, session, step, key as u8, INCREMENTAL)?;
            Ok(staged(state, now, step, |state, row| {
                count::result(operation, value_under(state, row)?, value)
            }))
        }
        Command::Validate { session, n } => validate(state, now, session, n),
        Command::Done { session } => done(state, now, session),
        Command::Undo { session } => undo(state, now, session),
        Command::Evict { key } => Ok(evict(state, now, key as u8)),
        Command::Tick => {
            accept(state, now);
            Ok(Answer::Ticked)
        }
    }
}

fn begin(state: &mut Bytes, now: u64) -> Outcome {
    let number = u32_at(state, NEXT_SESSION);
    if read::sessions_full(state, now) {
        return Err(refusal::FULL);
    }
    if number == NUMBERS_END {
        return Err(refusal::NUMBERS);
    }
    accept(state, now);
    let deadline = now + u32_at(state, WRITE_LIFETIME);
    let free = |record: &&mut SessionBytes| u32_at(*record, NUMBER) == 0;
    if let Some(record) = sessions_mut(state).iter_mut().find(free) {
        put_u32(record, NUMBER, number);
        record[STANDING] = OPEN;
        put_u64(record, SESSION_DEADLINE, deadline);
    }
    put_u32(state, NEXT_SESSION, number + 1);
    Ok(Answer::Session(number))
}

fn get(state: &mut Bytes, now: u64, session: u64, key: u8) -> Outcome {
    if session != 0 {
        live_place(state, now, session)?;
    }
    if let Some(row) = own_row(state, session, key) {
        accept(state, now);
        return Ok(found_by_holder(state, row).map_or(Answer::Ask, hit));
    }
    let token = u32_at(state, NEXT_TOKEN);
    if token == NUMBERS_END
        && !read::is_cached(state, now, key)
        && asking_i(read::held(state, now, key)) == Decision::Grant
    {
        return Err(refusal::NUMBERS);
    }
    accept(state, now);
    if let Some(cached) = found_cached(state, key) {
        return Ok(hit(cached));
    }
    if asking_i(read::held(state, now, key)) != Decision::Grant {
        return Ok(Answer::Backoff(read::wait(state, now, key)));
    }
    let deadline = now + u32_at(state, READ_LIFETIME);
    set_lease(state, key, token, deadline);
    put_u32(state, NEXT_TOKEN, token + 1);
    Ok(Answer::Lease(token))
}

/// Where a value stands in the state, and its length.
pub type Stretch = (usize, usize);

fn hit((at, length): Stretch) -> Answer {
    Answer::Hit { at: at as u64, length: length as u64 }
}

/// The cached value of the key.
pub fn found_cached(state: &Bytes, key: u8) -> Option<Stretch> {
    let record = &keys(state)[usize::from(key)];
    (record[PRESENT] == 1).then(|| (cached_at(key), usize::from(record[KEY_LENGTH])))
}

/// The value that the holder of this row reads: the staged one; none for kind 1 or DROP; otherwise
/// the cached one.
pub fn found_by_holder(state: &Bytes, row: usize) -> Option<Stretch> {
    let record = &rows(state)[row];
    match record[ROW_STAGED] {
        VALUE => Some((staged_at(row), usize::from(record[ROW_LENGTH]))),
        NOTHING if u64::from(record[ROW_KIND]) != INVALIDATE => {
            found_cached(state, record[ROW_KEY])
        }
        _ => None,
    }
}

/// The value that an operation works on: the staged one or else the cached one; none under DROP.
fn value_under(state: &Bytes, row: usize) -> Option<&[u8]> {
    found_by_holder(state, row).map(|(at, length)| &state[at..at + length])
}

fn fill(state: &mut Bytes, now: u64, token: u64, key: u8, value: &[u8]) -> Answer {
    accept(state, now);
    if token == 0 || u32_at(&keys(state)[usize::from(key)], TOKEN) != token {
        return Answer::Ignored;
    }
    cache_value(state, key, value);
    set_lease(state, key, 0, 0);
    Answer::Stored
}

/// The place of a live session that is open, or NO SESSION or SEALED.
fn open_place(state: &Bytes, now: u64, session: u64) -> Result<usize, u64> {
    let place = live_place(state, now, session)?;
    match sessions(state)[place][STANDING] {
        OPEN => Ok(place),
        _ => Err(refusal::SEALED),
    }
}

fn quar(state: &mut Bytes, now: u64, session: u64, key: u8, kind: u64) -> Outcome {
    let place = open_place(state, now, session)?;
    let own = own_row(state, session, key).map(|row| u64::from(rows(state)[row][ROW_KIND]));
    if own == Some(kind) {
        accept(state, now);
        return Ok(Answer::Held);
    }
    let decision = asking_q(read::held(state, now, key), kind);
    if decision == Decision::AbortAsker {
        accept(state, now);
        end_session(state, place);
        return Ok(Answer::Aborted);
    }
    if read::rows_full(state, now) {
        return Err(refusal::ROOM);
    }
    accept(state, now);
    set_lease(state, key, 0, 0);
    let free = |row: &&mut RowBytes| u32_at(*row, ROW_SESSION) == 0;
    if let Some(row) = rows_mut(state).iter_mut().find(free) {
        put_u32(row, ROW_SESSION, session);
        row[ROW_KEY] = key;
        row[ROW_KIND] = kind as u8;
    }
    Ok(Answer::Granted)
}

/// A step that STAGE or DELTA may take or has taken: the places of its session and its row, and
/// whether it is the next.
struct Step {
    place: usize,
    row: usize,
    is_next: bool,
}

/// The refusals of STAGE and DELTA in order: NO SESSION, SEALED, NO LEASE, KIND, AHEAD.
fn staging(
    state: &Bytes,
    now: u64,
    session: u64,
    step: u64,
    key: u8,
    kind: u64,
) -> Result<Step, u64> {
    let place = open_place(state, now, session)?;
    let row = own_row(state, session, key).ok_or(refusal::NO_LEASE)?;
    if u64::from(rows(state)[row][ROW_KIND]) != kind {
        return Err(refusal::KIND);
    }
    let count = u16_at(&sessions(state)[place], COUNT);
    if step > count {
        return Err(refusal::AHEAD);
    }
    Ok(Step { place, row, is_next: step == count })
}

/// Takes the step if it is the next: stages what `make` gives, or DROP, and counts it.
fn staged(
    state: &mut Bytes,
    now: u64,
    step: Step,
    make: impl Fn(&Bytes, usize) -> Option<Value>,
) -> Answer {
    accept(state, now);
    if !step.is_next {
        return Answer::Repeated;
    }
    let session = &mut sessions_mut(state)[step.place];
    let count = u16_at(session, COUNT);
    put_u16(session, COUNT, count + 1);
    let made = make(state, step.row);
    let row = &mut rows_mut(state)[step.row];
    match made {
        Some(value) => {
            stage_value(row, &value);
            Answer::Staged
        }
        None => {
            stage_drop(row);
            Answer::Dropped
        }
    }
}

fn validate(state: &mut Bytes, now: u64, session: u64, n: u64) -> Outcome {
    let place = live_place(state, now, session)?;
    let record = &sessions(state)[place];
    let agrees = u16_at(record, COUNT) == n;
    if record[STANDING] == SEALED && !agrees {
        return Err(refusal::SEALED);
    }
    accept(state, now);
    if !agrees {
        end_session(state, place);
        return Ok(Answer::Lost);
    }
    let record = &mut sessions_mut(state)[place];
    record[STANDING] = SEALED;
    put_u64(record, SESSION_DEADLINE, 0);
    Ok(Answer::Validated)
}

fn done(state: &mut Bytes, now: u64, session: u64) -> Outcome {
    let place = live_place(state, now, session)?;
    if sessions(state)[place][STANDING] != SEALED {
        return Err(refusal::NOT_SEALED);
    }
    accept(state, now);
    for row in 0..rows(state).len() {
        if u32_at(&rows(state)[row], ROW_SESSION) == session {
            settle(state, row);
        }
    }
    end_session(state, place);
    Ok(Answer::Done)
}

/// The row's staged value is cached; with nothing or DROP staged its key becomes absent.
fn settle(state: &mut Bytes, row: usize) {
    let record = &rows(state)[row];
    let key = record[ROW_KEY];
    let length = usize::from(record[ROW_LENGTH]);
    if record[ROW_STAGED] != VALUE {
        return drop_value(state, key);
    }
    let staged = staged_at(row);
    if let Some(value) = Value::of(&state[staged..staged + length]) {
        cache_value(state, key, &value);
    }
}

fn undo(state: &mut Bytes, now: u64, session: u64) -> Outcome {
    let place = live_place(state, now, session)?;
    accept(state, now);
    end_session(state, place);
    Ok(Answer::Undone)
}

fn evict(state: &mut Bytes, now: u64, key: u8) -> Answer {
    accept(state, now);
    if found_cached(state, key).is_none() {
        return Answer::Empty;
    }
    drop_value(state, key);
    Answer::Evicted
}

/// SHOW: the value with which GET, nothing expiring, would answer HIT, or NO SESSION.
pub fn shown(state: &Bytes, session: u64, key: u8) -> Result<Option<Stretch>, u64> {
    if session != 0 && place_of(state, session).is_none() {
        return Err(refusal::NO_SESSION);
    }
    Ok(match own_row(state, session, key) {
        Some(row) => found_by_holder(state, row),
        None => found_cached(state, key),
    })
}

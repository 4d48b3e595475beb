//! Commands to run: most of them fit the state, some are beside it.

use second::generate::Random;
use second::lent::layout::*;
use second::numbers::MOST_STEPS;
use second::Command;

/// A command with a value beside it. `near` bounds the keys and how far below the next number sessions and tokens are looked for.
pub fn command(random: &mut Random, state: &[u8], near: u64) -> (Command, Vec<u8>) {
    let state = state.try_into().expect("a state of the right length");
    let key = match random.below(40) {
        0 => 256 + random.below(3),
        _ => random.below(near.min(256)),
    };
    let session = session(random, state, near);
    let command = match random.below(24) {
        0..=1 => Command::Begin,
        2..=6 => Command::Get { session: if random.below(2) == 0 { 0 } else { session }, key },
        7..=9 => fill(random, state, key, near),
        10..=13 => Command::Quar { session, key, kind: random.below(30).min(random.below(3) + 1) },
        14..=18 => step(random, state, session, key),
        19 => Command::Validate { session, n: near_count(random, state, session) },
        20 => Command::Done { session },
        21 => Command::Undo { session },
        22 => Command::Evict { key },
        _ => Command::Tick,
    };
    (command, value(random))
}

/// A session's number: most often a live one's, else one lately given, 0 or anything.
fn session(random: &mut Random, state: &Bytes, near: u64) -> u64 {
    match random.below(30) {
        0 => random.any(),
        1 => 0,
        2..=6 => recent(random, u32_at(state, NEXT_SESSION), near),
        _ => taken(random, sessions(state), NUMBER).map_or(1, |record| u32_at(record, NUMBER)),
    }
}

/// A number given not long ago.
fn recent(random: &mut Random, next: u64, near: u64) -> u64 {
    next.saturating_sub(1 + random.below(near))
}

/// A record that is taken, looked for from a random place on; `number` is where its number stands.
pub fn taken<'a, const BYTES: usize>(random: &mut Random, records: &'a [[u8; BYTES]], number: usize) -> Option<&'a [u8; BYTES]> {
    let (before, behind) = records.split_at(random.below(records.len() as u64) as usize);
    behind.iter().chain(before).find(|record| u32_at(*record, number) != 0)
}

/// The count of a session, 0 if it is not there.
fn count(state: &Bytes, session: u64) -> u64 {
    let own = sessions(state).iter().find(|record| u32_at(*record, NUMBER) == session);
    own.map_or(0, |record| u16_at(record, COUNT))
}

/// The session's count, or one beside it, or one at the end.
fn near_count(random: &mut Random, state: &Bytes, session: u64) -> u64 {
    let count = count(state, session);
    match random.below(12) {
        0 => count + 1,
        1 => count.saturating_sub(1),
        2 => MOST_STEPS - 1 + random.below(3),
        _ => count,
    }
}

/// FILL, most often with the token of a lease that is there.
fn fill(random: &mut Random, state: &Bytes, key: u64, near: u64) -> Command {
    let place = keys(state).iter().position(|record| u32_at(record, TOKEN) != 0);
    match place.filter(|_| random.below(3) > 0) {
        Some(place) => Command::Fill { token: u32_at(&keys(state)[place], TOKEN), key: place as u64 },
        None => Command::Fill { token: recent(random, u32_at(state, NEXT_TOKEN), near), key },
    }
}

/// STAGE or DELTA, most often the next step on a row that is there.
fn step(random: &mut Random, state: &Bytes, session: u64, key: u64) -> Command {
    let row = taken(random, rows(state), ROW_SESSION).filter(|_| random.below(4) > 0);
    let (session, key, kind) = match row {
        Some(row) => (u32_at(row, ROW_SESSION), u64::from(row[ROW_KEY]), row[ROW_KIND]),
        None => (session, key, 2),
    };
    let step = near_count(random, state, session);
    let other = random.below(8) == 0;
    match (kind == 3) != other {
        true => Command::Delta { session, step, key, operation: random.below(30).min(random.below(4) + 1) },
        false => Command::Stage { session, step, key },
    }
}

/// Bytes of 0 to 64, at times more, at times digits.
fn value(random: &mut Random) -> Vec<u8> {
    if random.below(2) == 0 {
        let count = match random.below(4) {
            0 => u64::MAX - random.below(3),
            1 => random.any(),
            _ => random.below(1_000),
        };
        let zeros = "0".repeat(if random.below(8) == 0 { random.below(4) as usize } else { 0 });
        return format!("{zeros}{count}").into_bytes();
    }
    let length = match random.below(30) {
        0 => 64 + random.below(3),
        1 => 60 + random.below(5),
        _ => random.below(33),
    };
    (0..length).map(|_| random.any() as u8).collect()
}

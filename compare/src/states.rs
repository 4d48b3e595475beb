//! Well-formed states to begin with: fresh, used by random commands, full, and at the ends of the numbers.

use crate::commands::command;
use second::generate::Random;
use second::lent::layout::{rows, sessions, u16_at, u32_at, u64_at, Bytes, CLOCK, COUNT, NEXT_SESSION, NEXT_TOKEN, NUMBER, ROW_SESSION};
use second::lent::{decode, encode, run, start};
use second::numbers::{KEYS, LAST_TIME, MOST_STEPS, ROWS, SESSIONS, STATE_BYTES, VALUE_BYTES};
use second::tables::{RowRecord, SessionRecord, Staged, Standing, Tables};
use second::value::Value;
use second::Command;

const READ_LIFETIME: u64 = 1_000;
const WRITE_LIFETIME: u64 = 5_000;

pub fn fresh() -> Vec<u8> {
    let mut state = vec![0xa5; STATE_BYTES];
    start(&mut state, READ_LIFETIME, WRITE_LIFETIME);
    state
}

/// A state after some random commands of which most are accepted.
pub fn used(random: &mut Random, commands: u64, near: u64) -> Vec<u8> {
    let mut state = fresh();
    let mut now = 0;
    for _ in 0..commands {
        let (command, value) = command(random, &state, near);
        run(&mut state, now, command, &value);
        now += random.below(40) / 20;
    }
    state
}

/// 128 sessions, 384 rows (three keys of kind 1 for each session), a value on every key, a lease on every key without a row.
pub fn full() -> Vec<u8> {
    let mut state = fresh();
    let mut token = 0;
    for key in 0..KEYS as u64 {
        run(&mut state, 0, Command::Get { session: 0, key }, b"");
        token += 1;
        run(&mut state, 0, Command::Fill { token, key }, &[key as u8; VALUE_BYTES][..(key % 65) as usize]);
    }
    for key in 3..KEYS as u64 {
        run(&mut state, 0, Command::Evict { key }, b"");
        run(&mut state, 0, Command::Get { session: 0, key }, b"");
    }
    for session in 1..=SESSIONS as u64 {
        run(&mut state, 0, Command::Begin, b"");
        for key in 0..3 {
            run(&mut state, 0, Command::Quar { session, key, kind: 1 }, b"");
        }
    }
    state
}

/// The same state with its next numbers moved up to the last ones.
pub fn at_the_end(mut state: Vec<u8>, below: u32) -> Vec<u8> {
    for at in [NEXT_SESSION, NEXT_TOKEN] {
        state[at..at + 4].copy_from_slice(&(u32::MAX - below).to_le_bytes());
    }
    state
}

/// The same state with something changed in its tables.
fn changed(state: &[u8], change: impl Fn(&mut Tables)) -> Vec<u8> {
    let mut tables = decode(state.try_into().expect("a state of the right length"));
    change(&mut tables);
    encode(&tables)
}

/// The same state so many ms before the last time, its deadlines moved along, some of them past 2^48.
pub fn at_last_time(state: &[u8], before: u64) -> Vec<u8> {
    changed(state, |tables| {
        let on = LAST_TIME - before - tables.clock;
        tables.clock += on;
        for lease in tables.keys.iter_mut().filter_map(|key| key.lease.as_mut()) {
            lease.deadline += on;
        }
        for session in tables.sessions.iter_mut().flatten() {
            if let Standing::Open { deadline } = &mut session.standing {
                *deadline += on;
            }
        }
    })
}

/// The same state with every session's count at 998, 999 or 1,000.
pub fn at_last_step(state: &[u8]) -> Vec<u8> {
    changed(state, |tables| {
        for (place, session) in tables.sessions.iter_mut().flatten().enumerate() {
            session.count = MOST_STEPS - place as u64 % 3;
        }
    })
}

/// Every session record and every row taken, by rows of all three kinds, a quarter of the sessions sealed.
pub fn crowded() -> Vec<u8> {
    const ALONE: usize = 200;
    let rows = (0..ROWS).map(|place| {
        let alone = place < ALONE;
        Some(RowRecord {
            session: (place % SESSIONS) as u64 + 1,
            key: if alone { place } else { ALONE + place % (KEYS - ALONE) } as u8,
            kind: if alone { 2 + place as u64 % 2 } else { 1 },
            staged: match place % 5 {
                _ if !alone => Staged::Nothing,
                0 if place % 2 == 1 => Staged::Drop,
                1..=3 => Staged::Value(Value::of(place.to_string().as_bytes()).unwrap_or(Value::EMPTY)),
                _ => Staged::Nothing,
            },
        })
    });
    let sessions = (0..SESSIONS as u64).map(|place| {
        let standing = match place % 4 {
            0 => Standing::Sealed,
            _ => Standing::Open { deadline: WRITE_LIFETIME - place },
        };
        Some(SessionRecord { number: place + 1, standing, count: place % 3 })
    });
    changed(&fresh(), |tables| {
        tables.next_session = SESSIONS as u64 + 1;
        tables.rows = rows.clone().collect();
        tables.sessions = sessions.clone().collect();
        for key in tables.keys.iter_mut().step_by(3) {
            key.value = Value::of(b"41");
        }
    })
}

/// How numbers are made hard to tell apart: each is put in the place of one of a state's, no two the same.
pub const HARD: [fn(u64) -> u64; 5] = [
    // alike in their fourteen low bits: climbing, falling, mixed
    |n| (n << 14) + 7,
    |n| (((1 << 18) - n) << 14) + 7,
    |n| ((n * 100_003 % (1 << 18)) << 14) + 7,
    // every second one like its neighbour in the twelve low bits
    |n| if n % 2 == 0 { n - 1 + (n << 12) } else { n },
    // as if by chance
    |n| n * 2_654_435_769 % (1 << 32),
];

/// The same state with other session numbers and tokens.
pub fn renumbered(state: &[u8], number: fn(u64) -> u64) -> Vec<u8> {
    changed(state, |tables| {
        (tables.next_session, tables.next_token) = (u64::from(u32::MAX), u64::from(u32::MAX));
        for lease in tables.keys.iter_mut().filter_map(|key| key.lease.as_mut()) {
            lease.token = number(lease.token);
        }
        for session in tables.sessions.iter_mut().flatten() {
            session.number = number(session.number);
        }
        for row in tables.rows.iter_mut().flatten() {
            row.session = number(row.session);
        }
    })
}

/// The ends that commands are to be run at.
pub const ENDS: [&str; 8] = [
    "clock 2^48-1", "next session 2^32-2", "next session 2^32-1", "next token 2^32-2", "next token 2^32-1", "count 1,000", "384 rows",
    "128 sessions",
];

/// Which of the ends a state stands at, in their order.
pub fn stands_at(state: &[u8]) -> [bool; 8] {
    let Ok(state) = <&Bytes>::try_from(state) else {
        return [false; 8];
    };
    let last = u64::from(u32::MAX);
    let (session, token) = (u32_at(state, NEXT_SESSION), u32_at(state, NEXT_TOKEN));
    [
        u64_at(state, CLOCK) == LAST_TIME,
        session == last - 1,
        session == last,
        token == last - 1,
        token == last,
        sessions(state).iter().any(|record| u16_at(record, COUNT) == MOST_STEPS),
        rows(state).iter().all(|row| u32_at(row, ROW_SESSION) != 0),
        sessions(state).iter().all(|record| u32_at(record, NUMBER) != 0),
    ]
}

//! The quick well-formed check against the slow one, on good states and on damaged ones.

mod common;

use common::state_after;
use second::generate::{Profile, Random};
use second::lent::layout::*;
use second::lent::{decode, encode, run, well_formed, well_formed_plain};
use second::numbers::{LAST_TIME, STATE_BYTES};
use second::tables::{Lease, RowRecord, SessionRecord, Staged, Standing, Tables};
use second::value::Value;
use second::{Answer, Command};

/// Asserts that both checks say the same, and gives it.
fn judged(state: &[u8]) -> bool {
    let well = well_formed(state);
    assert_eq!(well, well_formed_plain(state));
    well
}

/// States with much in them.
fn rich_states() -> Vec<Vec<u8>> {
    let states = [
        state_after(1, 2_000, Profile::Rules),
        state_after(2, 1_200, Profile::Full),
        state_after(3, 900, Profile::Full),
        state_after(4, 3_000, Profile::Mix),
        state_after(5, 500, Profile::Clocks),
    ];
    for state in &states {
        assert!(judged(state));
    }
    states.to_vec()
}

#[test]
fn lengths() {
    let state = state_after(1, 500, Profile::Rules);
    let mut longer = state.clone();
    longer.push(0);
    assert!(!judged(&longer));
    for length in [0, 1, 63, 64, 100, 50_240, 65_535] {
        assert!(!judged(&state[..length]));
    }
    assert!(judged(&state));
}

#[test]
fn every_byte_changed_once() {
    let mut random = Random::new(1);
    for mut state in rich_states().into_iter().take(2) {
        let mut well = 0;
        for at in 0..STATE_BYTES {
            let was = state[at];
            state[at] ^= 1 << random.below(8);
            well += u64::from(judged(&state));
            state[at] = was;
        }
        assert!(well > 0);
    }
}

#[test]
fn unused_bytes_are_zero() {
    let state = state_after(1, 2_000, Profile::Full);
    let unused = (HEADER_USED..KEYS_AT)
        .chain(REST_AT..STATE_BYTES)
        .chain((KEYS_AT..ROWS_AT).step_by(KEY_BYTES).flat_map(|at| [at + 2, at + 3]))
        .chain((SESSIONS_AT..REST_AT).step_by(SESSION_BYTES).map(|at| at + SESSION_UNUSED));
    for at in unused {
        let mut damaged = state.clone();
        damaged[at] = 1;
        assert!(!well_formed(&damaged), "{at}");
    }
}

#[test]
fn random_damage() {
    let mut random = Random::new(2);
    let mut well = 0;
    for state in rich_states() {
        for _ in 0..3_000 {
            let mut damaged = state.clone();
            for _ in 0..random.from_to(1, 3) {
                damage(&mut random, &mut damaged);
            }
            well += u64::from(judged(&damaged));
        }
    }
    assert!((100..14_900).contains(&well), "{well}");
}

/// One damage: a byte or a number set, or a record put in the place of another.
fn damage(random: &mut Random, state: &mut [u8]) {
    let (from, width) = random
        .pick(&[(KEYS_AT, KEY_BYTES), (ROWS_AT, ROW_BYTES), (SESSIONS_AT, SESSION_BYTES)])
        .unwrap();
    let end = [(KEYS_AT, ROWS_AT), (ROWS_AT, SESSIONS_AT), (SESSIONS_AT, REST_AT)];
    let end = end.iter().find(|(at, _)| *at == from).unwrap().1;
    let records = ((end - from) / width) as u64;
    let one = from + width * random.below(records) as usize;
    let other = from + width * random.below(records) as usize;
    match random.below(6) {
        0 => state.copy_within(one..one + width, other),
        1 => state[one..one + width].fill(0),
        2 => state[one + random.below(width as u64) as usize] = random.below(4) as u8,
        3 => state.copy_within(one..one + 8, other),
        4 => state[random.below(24) as usize] = random.any() as u8,
        _ => state[one + random.below(8) as usize] ^= 1 << random.below(8),
    }
}

#[test]
fn random_buffers() {
    let mut random = Random::new(3);
    for round in 0..300 {
        let length = match round % 3 {
            0 => STATE_BYTES as u64,
            1 => random.below(70_000),
            _ => random.below(200),
        };
        let buffer: Vec<u8> = (0..length).map(|_| random.any() as u8).collect();
        assert!(!judged(&buffer));
        let zeros = vec![0; length as usize];
        assert!(!judged(&zeros));
        let mut lent = buffer.clone();
        let command = Command::of(random.from_to(1, 11), [1, 1, 1, 1]).unwrap();
        assert_eq!(run(&mut lent, 0, command, &buffer), Answer::Refused(1));
        assert!(lent == buffer);
    }
}

/// Changes one thing in the tables, sound or not.
fn change(random: &mut Random, tables: &mut Tables) {
    let key = random.below(256) as usize;
    let row = random.below(384) as usize;
    let place = random.below(128) as usize;
    let other = random.pick(&tables.sessions).unwrap().map_or(1, |session| session.number);
    let value = Value::of(&[7; 64][..random.below(65) as usize]).unwrap();
    match random.below(12) {
        0 => tables.clock = random.pick(&[0, 5, LAST_TIME, LAST_TIME + 1, u64::MAX]).unwrap(),
        1 => tables.read_lifetime = random.pick(&[0, 1, 600_000, 600_001]).unwrap(),
        2 => tables.write_lifetime = random.pick(&[0, 1, 600_000, 600_001]).unwrap(),
        3 => tables.next_session = random.pick(&[0, 1, other, other + 1, u32::MAX.into()]).unwrap(),
        4 => tables.next_token = random.pick(&[0, 1, 9, u32::MAX.into()]).unwrap(),
        5 => tables.keys[key].value = random.chance(50).then_some(value),
        6 => {
            let token = 1 + random.below(tables.next_token.clamp(1, 300));
            let deadline = tables.clock.wrapping_add(random.below(3_000));
            tables.keys[key].lease = Some(Lease { token, deadline });
        }
        7 => {
            let staged = [Staged::Nothing, Staged::Value(value), Staged::Drop];
            let staged = random.pick(&staged).unwrap();
            let kind = random.below(5);
            tables.rows[row] = Some(RowRecord { session: other, key: key as u8, kind, staged });
        }
        8 => tables.rows[row] = None,
        9 => tables.sessions[place] = None,
        10 => {
            let deadline = tables.clock.wrapping_add(random.below(12_000));
            let standing = random.pick(&[Standing::Sealed, Standing::Open { deadline }]).unwrap();
            let any = random.below(3_000) + 1;
            let number = random.pick(&[other, any]).unwrap();
            let count = random.below(1_002);
            tables.sessions[place] = Some(SessionRecord { number, standing, count });
        }
        _ => {
            if let Some(row) = &mut tables.rows[row] {
                row.session = other;
            }
        }
    }
}

#[test]
fn changed_tables() {
    let mut random = Random::new(4);
    let mut well = 0;
    for state in rich_states() {
        for _ in 0..2_000 {
            let mut tables = decode(state[..].try_into().unwrap());
            for _ in 0..random.from_to(1, 2) {
                change(&mut random, &mut tables);
            }
            well += u64::from(judged(&encode(&tables)));
        }
    }
    assert!((1_000..9_000).contains(&well), "{well}");
}

/// Numbers whose low bits are all the same, which the quick check cannot tell apart at once.
fn crowded(sessions: u64, leases: u64) -> Tables {
    let mut tables = decode(state_after(1, 1, Profile::Full)[..].try_into().unwrap());
    tables.next_session = u32::MAX.into();
    tables.next_token = u32::MAX.into();
    for place in 0..sessions {
        let number = (place + 1) << 24;
        let standing = Standing::Sealed;
        tables.sessions[place as usize] = Some(SessionRecord { number, standing, count: 0 });
        tables.rows[place as usize] =
            Some(RowRecord { session: number, key: 0, kind: 1, staged: Staged::Nothing });
    }
    for lease in 0..leases {
        tables.keys[1 + lease as usize].lease =
            Some(Lease { token: (lease + 1) << 23, deadline: 0 });
    }
    tables
}

#[test]
fn numbers_that_crowd() {
    for (sessions, leases) in [(0, 255), (2, 2), (3, 0), (128, 255)] {
        let tables = crowded(sessions, leases);
        assert!(judged(&encode(&tables)));
        for (one, other) in [(0, 1), (1, 2), (1, 127), (126, 127), (0, 127)] {
            let mut damaged = tables.clone();
            if let (Some(a), Some(b)) = (damaged.sessions[one], &mut damaged.sessions[other]) {
                b.number = a.number;
                assert!(!judged(&encode(&damaged)));
                damaged.rows.fill(None);
                assert!(!judged(&encode(&damaged)));
            }
            let mut damaged = tables.clone();
            let token = damaged.keys[1 + one].lease;
            if let (Some(a), Some(b)) = (token, &mut damaged.keys[1 + other].lease) {
                b.token = a.token;
                assert!(!judged(&encode(&damaged)));
            }
            let mut damaged = tables.clone();
            if let Some(row) = &mut damaged.rows[one] {
                row.session += 1 << 20;
                assert!(!judged(&encode(&damaged)));
            }
        }
    }
}

#[test]
fn a_deadline_may_have_passed() {
    let mut tables = crowded(0, 3);
    tables.clock = 1_000_000;
    assert!(judged(&encode(&tables)));
    let mut state = encode(&tables);
    let latest = tables.clock + tables.read_lifetime;
    let at = KEYS_AT + KEY_BYTES + LEASE_DEADLINE;
    put_u64(&mut state, at, latest);
    assert!(judged(&state));
    put_u64(&mut state, at, latest + 1);
    assert!(!judged(&state));
}

#[test]
fn without_a_token_there_is_no_deadline() {
    let mut state = encode(&crowded(0, 1));
    put_u32(&mut state, KEYS_AT + KEY_BYTES + TOKEN, 0);
    assert!(judged(&state));
    state[KEYS_AT + KEY_BYTES + LEASE_DEADLINE] = 1;
    assert!(!judged(&state));
}

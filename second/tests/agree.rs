//! The machine and the lent state agree on every answer and every byte: on generated input, and on
//! sound states that no input reaches, under any commands.

mod common;

use common::{any_session, generated, Both};
use second::generate::{Profile, Random};
use second::lent::{decode, sound};
use second::numbers::{LAST_TIME, NUMBERS_END};
use second::rehearsal::line::{read, Line};
use second::rehearsal::lines::Lines;
use second::tables::{Lease, Standing, Tables};
use second::{Answer, Command, Machine};
use std::collections::BTreeMap;

/// Runs all commands of an input on both.
fn run_input(input: &[u8]) {
    let mut both: Option<Both> = None;
    let mut lines = Lines::default();
    let mut each = |line: &[u8]| match (read(line), &mut both) {
        (Some(Line::Start { read, write }), None)
            if Machine::fresh(1, 1).start(read, write) == Answer::Ready =>
        {
            both = Some(Both::fresh(read, write));
        }
        (Some(Line::Command { now, command, value }), Some(both)) => {
            both.run(now, command, &value);
            if let Command::Get { session, key } = command {
                both.show(session, key);
            }
        }
        _ => {}
    };
    lines.feed(input, &mut each);
    lines.finish(&mut each);
    assert!(both.is_some());
}

fn run_profile(profile: Profile) {
    for seed in 0..3 {
        run_input(&generated(seed, 3_000, profile));
    }
}

#[test]
fn rules() {
    run_profile(Profile::Rules);
}

#[test]
fn lost() {
    run_profile(Profile::Lost);
}

#[test]
fn full() {
    run_profile(Profile::Full);
}

#[test]
fn clocks() {
    run_profile(Profile::Clocks);
}

#[test]
fn counts() {
    run_profile(Profile::Counts);
}

#[test]
fn damaged() {
    run_profile(Profile::Damaged);
}

#[test]
fn mix() {
    run_profile(Profile::Mix);
}

/// Any command, its numbers near those of the state.
fn any_command(random: &mut Random, tables: &Tables) -> Command {
    let session = any_session(random, tables);
    let (number, count) = session.map_or((0, 0), |session| (session.number, session.count));
    let odd = [0, number + 1, number + (1 << 32), tables.next_session, u64::MAX];
    let number = if random.chance(85) { number } else { random.pick(&odd).unwrap() };
    let rows: Vec<_> = tables.rows.iter().flatten().filter(|row| row.session == number).collect();
    let row = random.pick(&rows).filter(|_| random.chance(70));
    let key = row.map_or_else(|| random.below(257), |row| u64::from(row.key));
    let step = (count + random.below(3)).saturating_sub(1);
    let token = tables.keys.get(key as usize).and_then(|key| key.lease);
    let token = token.map_or_else(|| random.below(9), |lease| lease.token);
    match random.below(11) {
        2 => Command::Fill { token, key },
        3 => Command::Quar { session: number, key, kind: random.below(5) },
        4 => Command::Stage { session: number, step, key },
        5 => Command::Delta { session: number, step, key, operation: random.below(6) },
        6 => Command::Validate { session: number, n: step },
        7 => Command::Done { session: number },
        8 => Command::Undo { session: number },
        9 => Command::Evict { key },
        10 => Command::Begin,
        1 => Command::Tick,
        _ => Command::Get { session: if random.chance(50) { 0 } else { number }, key },
    }
}

/// Any time, most often the clock's or a deadline's.
fn any_time(random: &mut Random, tables: &Tables) -> u64 {
    let session = any_session(random, tables).map(|session| session.standing);
    match (random.below(12), session) {
        (0..=1, Some(Standing::Open { deadline })) => deadline.saturating_sub(random.below(2)),
        (2, _) => tables.clock.saturating_sub(1),
        (3, _) => random.pick(&[LAST_TIME, LAST_TIME + 1]).unwrap(),
        (4..=5, _) => tables.clock + random.below(50),
        _ => tables.clock,
    }
}

/// Changes a sound state in ways that keep it sound.
fn vary(random: &mut Random, tables: &mut Tables) {
    let later = random.pick(&[0, 0, 10, 500, 700_000]).unwrap();
    tables.clock = match random.chance(10) {
        true => LAST_TIME,
        false => (tables.clock + later).min(LAST_TIME),
    };
    let free: Vec<usize> = (0..256)
        .filter(|key| !tables.rows.iter().flatten().any(|row| usize::from(row.key) == *key))
        .collect();
    for _ in 0..random.below(60) {
        let Some(key) = random.pick(&free) else { break };
        let deadline = tables.clock + tables.read_lifetime - random.below(tables.read_lifetime);
        let deadline = if random.chance(20) { random.below(tables.clock + 1) } else { deadline };
        let token = tables.next_token;
        if token < NUMBERS_END && tables.keys[key].lease.is_none() {
            tables.keys[key].lease = Some(Lease { token, deadline });
            tables.next_token += 1;
        }
    }
    for session in tables.sessions.iter_mut().flatten() {
        if random.chance(10) {
            session.count = random.below(1_001);
        }
    }
    spread_numbers(random, tables);
}

/// Gives the sessions numbers far apart, in any order, or leaves none to give.
fn spread_numbers(random: &mut Random, tables: &mut Tables) {
    if random.chance(50) {
        let factor = random.from_to(1, 1 << 20) * 2 + 1;
        let mut given = BTreeMap::new();
        for session in tables.sessions.iter_mut().flatten() {
            let number = 1 + session.number.wrapping_mul(factor) % (NUMBERS_END - 1);
            given.insert(session.number, number);
            session.number = number;
        }
        for row in tables.rows.iter_mut().flatten() {
            row.session = given[&row.session];
        }
        tables.next_session = NUMBERS_END;
    }
    if random.chance(30) {
        tables.next_token = NUMBERS_END;
    }
}

#[test]
fn any_sound_state_any_commands() {
    let mut random = Random::new(11);
    let mut ran = 0;
    for round in 0..120 {
        let profile = random.pick(&Profile::ALL).unwrap();
        let lines = random.from_to(20, 1_500);
        let state = common::state_after(round, lines, profile);
        let mut tables = decode(state[..].try_into().unwrap());
        vary(&mut random, &mut tables);
        if !sound(&tables) {
            continue;
        }
        let mut both = Both::of(&tables);
        for _ in 0..80 {
            let tables = both.machine.tables();
            let command = any_command(&mut random, &tables);
            let now = any_time(&mut random, &tables);
            let value = vec![b'0' + random.below(10) as u8; random.below(68) as usize];
            both.run(now, command, &value);
            both.show(random.below(9), random.below(257));
            ran += 1;
        }
    }
    assert!(ran > 5_000, "{ran}");
}

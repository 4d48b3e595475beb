//! Clients that keep the four rules. They look at the state and say a line that fits it; now and
//! then one that is refused.

use super::said::Said;
use super::values;
use super::world::World;
use crate::numbers::{INCREMENTAL, INVALIDATE, MOST_STEPS};
use crate::tables::Staged;

/// How many sessions these clients have live at once.
const LIVE: usize = 16;
/// With more sealed sessions than this they finish first.
const SEALED: usize = 6;

/// The next line.
pub fn speak(world: &mut World) -> Said {
    let said = if world.sealed().len() > SEALED && world.random.chance(60) {
        finish(world)
    } else {
        match world.random.below(100) {
            0..=29 => None,
            30..=46 => fill(world),
            47..=53 => begin(world),
            54..=65 => quar(world),
            66..=81 => step(world),
            82..=87 => validate(world),
            88..=93 => finish(world),
            94..=95 => Some(Said::plain(b'E', &[key(world)])),
            96 => Some(Said::plain(b'T', &[])),
            97 => world.open().pop().map(|session| Said::plain(b'U', &[session])),
            _ => mistake(world),
        }
    };
    said.unwrap_or_else(|| get(world))
}

/// A key, most often one of a few.
pub fn key(world: &mut World) -> u64 {
    let bound = if world.random.chance(80) { 12 } else { 256 };
    world.random.below(bound)
}

/// GET as anyone, or as a session, most often on a key that it holds.
pub fn get(world: &mut World) -> Said {
    let live: Vec<u64> = world.machine().sessions().keys().copied().collect();
    let Some(session) = world.random.pick(&live).filter(|_| world.random.chance(40)) else {
        return Said::plain(b'G', &[0, key(world)]);
    };
    let held: Vec<u8> = world.session(session).rows.keys().copied().collect();
    let key = match world.random.pick(&held).filter(|_| world.random.chance(70)) {
        Some(key) => u64::from(key),
        None => key(world),
    };
    Said::plain(b'G', &[session, key])
}

/// FILL with the register's value at the grant or now.
pub fn fill(world: &mut World) -> Option<Said> {
    let granted = world.granted()?;
    let value = match world.random.chance(50) {
        true => granted.value,
        false => *world.register().value(granted.key),
    };
    Some(Said::with(b'F', &[granted.token, u64::from(granted.key)], &value))
}

pub fn begin(world: &World) -> Option<Said> {
    (world.machine().sessions().len() < LIVE).then(|| Said::plain(b'B', &[]))
}

/// QUAR of an open session.
pub fn quar(world: &mut World) -> Option<Said> {
    let open = world.open();
    let session = world.random.pick(&open)?;
    let kind = world.random.pick(&[1, 1, 1, 2, 2, 3, 3, 3])?;
    Some(Said::plain(b'Q', &[session, key(world), kind]))
}

/// The rows of open sessions that can stage: session, key, kind, count.
fn staging_rows(world: &World) -> Vec<(u64, u8, u64, u64)> {
    let mut rows = Vec::new();
    for session in world.open() {
        let record = world.session(session);
        for (key, row) in record.rows.iter().filter(|(_, row)| row.kind != INVALIDATE) {
            rows.push((session, *key, row.kind, record.count));
        }
    }
    rows
}

/// STAGE or DELTA: most often the next step, else one before or after it.
pub fn step(world: &mut World) -> Option<Said> {
    let rows = staging_rows(world);
    let (session, key, kind, count) = world.random.pick(&rows)?;
    let step = match world.random.below(20) {
        0..=1 => count.saturating_sub(1),
        2 => count + 1,
        _ => count,
    };
    Some(step_said(world, session, step, u64::from(key), kind))
}

/// A step of this number on a row of this kind.
pub fn step_said(world: &mut World, session: u64, step: u64, key: u64, kind: u64) -> Said {
    if kind != INCREMENTAL {
        return Said::with(b'S', &[session, step, key], &values::value(&mut world.random));
    }
    let operation = world.random.from_to(1, 4);
    let operand = match operation {
        1 | 2 => {
            let length = world.random.below(12);
            values::bytes(&mut world.random, length)
        }
        _ => values::count(&mut world.random),
    };
    Said::with(b'D', &[session, step, key, operation], &operand)
}

/// VALIDATE with the session's count, seldom with another.
pub fn validate(world: &mut World) -> Option<Said> {
    let live: Vec<u64> = world.machine().sessions().keys().copied().collect();
    let session = world.random.pick(&live)?;
    let n = world.session(session).count + u64::from(world.random.chance(6));
    Some(Said::plain(b'V', &[session, n]))
}

/// What a sealed session still has to do: the register's writes, then DONE; or UNDO before any.
pub fn finish(world: &mut World) -> Option<Said> {
    let sealed = world.sealed();
    let session = world.random.pick(&sealed)?;
    if let Some(said) = write_staged(world, session) {
        return Some(said);
    }
    if !world.register().has_written_for(session) && world.random.chance(15) {
        return Some(Said::plain(b'U', &[session]));
    }
    let rows = world.session(session).rows.iter();
    let unstaged: Vec<u8> = rows
        .filter(|(_, row)| !matches!(row.staged, Staged::Value(_)))
        .map(|(key, _)| *key)
        .collect();
    match world.random.pick(&unstaged).filter(|_| world.random.chance(50)) {
        Some(key) => {
            let value = values::value(&mut world.random);
            Some(Said::with(b'C', &[session, u64::from(key)], &value))
        }
        None => Some(Said::plain(b'X', &[session])),
    }
}

/// The register's write of a staged value that it doesn't hold yet.
pub fn write_staged(world: &World, session: u64) -> Option<Said> {
    world.session(session).rows.iter().find_map(|(key, row)| match &row.staged {
        Staged::Value(value) if value != world.register().value(*key) => {
            Some(Said::with(b'C', &[session, u64::from(*key)], value))
        }
        _ => None,
    })
}

/// STAGE on a row of kind 3, or DELTA on one of kind 2.
fn wrong_kind(world: &mut World) -> Option<Said> {
    let rows = staging_rows(world);
    let (session, key, kind, count) = world.random.pick(&rows)?;
    let key = u64::from(key);
    Some(match kind {
        INCREMENTAL => Said::with(b'S', &[session, count, key], b"x"),
        _ => Said::with(b'D', &[session, count, key, 1], b"x"),
    })
}

/// A line that is refused or ignored, and so breaks no rule.
pub fn mistake(world: &mut World) -> Option<Said> {
    let open = world.open();
    let open = world.random.pick(&open).unwrap_or(0);
    let sealed = world.sealed();
    let sealed = world.random.pick(&sealed);
    let key = key(world);
    let long = world.random.from_to(65, 80);
    let long = values::bytes(&mut world.random, long);
    Some(match world.random.below(16) {
        0 => Said::plain(b'X', &[open]),
        1 => Said::plain(b'Q', &[sealed?, key, 1]),
        2 => Said::with(b'S', &[sealed?, 0, key], b"x"),
        3 => Said::plain(b'V', &[sealed?, world.session(sealed?).count + 1]),
        4 => Said::with(b'S', &[open, 0, world.random.below(256)], b"x"),
        5 => wrong_kind(world)?,
        6 => Said::plain(b'G', &[0, world.random.pick(&[255, 256, u64::MAX])?]),
        7 => Said::plain(b'Q', &[open, key, world.random.pick(&[0, 4, u64::MAX])?]),
        8 => Said::with(b'D', &[open, 0, key, world.random.pick(&[0, 5])?], b"1"),
        9 => Said::with(b'S', &[open, MOST_STEPS, key], b"x"),
        10 => Said::plain(b'V', &[open, MOST_STEPS + 1]),
        11 => Said::with(b'F', &[0, key], &long),
        12 => Said::with(b'S', &[open, 0, key], &long),
        13 => Said::plain(b'U', &[world.random.pick(&[0, (1 << 32) + open, u64::MAX])?]),
        14 => Said::plain(b'G', &[world.machine().next_session(), key]),
        _ => Said::with(b'F', &[world.random.pick(&[0, 1 << 32, u64::MAX])?, key], b"x"),
    })
}

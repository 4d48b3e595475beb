//! Lines lost, repeated and late, and careless clients: what breaks the rules in the field.

use super::clients;
use super::said::Said;
use super::values;
use super::world::World;
use crate::numbers::INVALIDATE;

/// A line on its way: when it arrives, counted in lines, and its time if it keeps that.
pub struct Flying {
    pub due: u64,
    pub said: Said,
    pub now: Option<u64>,
}

/// What becomes of a line that is sent.
pub enum Fate {
    Arrives,
    Lost,
    Late,
    Twice,
}

pub fn fate(world: &mut World) -> Fate {
    match world.random.below(100) {
        0..=7 => Fate::Lost,
        8..=15 => Fate::Late,
        16..=23 => Fate::Twice,
        _ => Fate::Arrives,
    }
}

/// Puts a line on its way, most often with a new time when it arrives.
pub fn delay(world: &mut World, made: u64, said: Said) -> Flying {
    let now = world.machine().clock();
    let keeps_time = world.random.chance(20);
    Flying { due: made + world.random.from_to(1, 25), said, now: keeps_time.then_some(now) }
}

/// Some steps of one session sent without waiting for answers, then VALIDATE with their number.
pub fn burst(world: &mut World) -> Vec<Said> {
    let open = world.open();
    let Some(session) = world.random.pick(&open) else {
        return Vec::new();
    };
    let record = world.session(session);
    let first = record.count;
    let rows: Vec<(u8, u64)> = record
        .rows
        .iter()
        .filter(|(_, row)| row.kind != INVALIDATE)
        .map(|(key, row)| (*key, row.kind))
        .collect();
    let steps = if rows.is_empty() { 0 } else { world.random.from_to(1, 4) };
    let mut said = Vec::new();
    for step in first..first + steps {
        if let Some((key, kind)) = world.random.pick(&rows) {
            said.push(clients::step_said(world, session, step, u64::from(key), kind));
        }
    }
    said.push(Said::plain(b'V', &[session, first + steps]));
    said
}

/// A line of a client that doesn't look: an old value filled, a write for the wrong session, UNDO
/// or DONE out of turn.
pub fn careless(world: &mut World) -> Option<Said> {
    let sealed = world.sealed();
    let live: Vec<u64> = world.machine().sessions().keys().copied().collect();
    let value = values::value(&mut world.random);
    let key = clients::key(world);
    Some(match world.random.below(6) {
        0 => {
            let granted = world.granted()?;
            let old = *world.held_before(granted.key);
            Said::with(b'F', &[granted.token, u64::from(granted.key)], &old)
        }
        1 => {
            let granted = world.granted()?;
            Said::with(b'F', &[granted.token, u64::from(granted.key)], &value)
        }
        2 => Said::with(b'C', &[world.random.pick(&live)?, key], &value),
        3 => Said::with(b'C', &[world.random.below(world.machine().next_session()), key], &value),
        4 => Said::plain(b'U', &[world.random.pick(&sealed)?]),
        _ => Said::plain(b'X', &[world.random.pick(&sealed)?]),
    })
}

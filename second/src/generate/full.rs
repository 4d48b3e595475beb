//! Tables filled to their last row, kept full for a while, emptied by time.

use super::clients;
use super::said::Said;
use super::world::World;
use crate::numbers::{ROWS, SESSIONS};

/// How many lines the tables are kept full before time empties them.
const KEPT_FULL: u64 = 400;

/// How far the tables are.
#[derive(Default)]
pub struct Filling {
    lines_full: u64,
}

impl Filling {
    /// The next line, and whether all open sessions shall have ended by its time.
    pub fn speak(&mut self, world: &mut World) -> (Said, bool) {
        if self.lines_full > KEPT_FULL {
            self.lines_full = 0;
            return (Said::plain(b'T', &[]), true);
        }
        if self.lines_full == 0 && world.machine().rows_held() < ROWS {
            return (fill_up(world), false);
        }
        self.lines_full += 1;
        (when_full(world), false)
    }
}

/// BEGIN and QUAR until nothing is free.
fn fill_up(world: &mut World) -> Said {
    if world.machine().sessions().len() < SESSIONS && world.random.chance(50) {
        return Said::plain(b'B', &[]);
    }
    if world.random.chance(4) {
        return clients::speak(world);
    }
    let open = world.open();
    let few = |session: &u64| world.session(*session).rows.len() < 4;
    let open: Vec<u64> = open.into_iter().filter(few).collect();
    match world.random.pick(&open) {
        None => Said::plain(b'B', &[]),
        Some(session) => quar(world, session),
    }
}

/// QUAR on any key, most often to invalidate, so that most are granted.
fn quar(world: &mut World, session: u64) -> Said {
    let kind = if world.random.chance(97) { 1 } else { world.random.from_to(2, 3) };
    Said::plain(b'Q', &[session, world.random.below(256), kind])
}

/// FULL, ROOM and what else is asked of full tables.
fn when_full(world: &mut World) -> Said {
    let open = world.open();
    match (world.random.below(100), world.random.pick(&open)) {
        (0..=24, _) => Said::plain(b'B', &[]),
        (25..=64, Some(session)) => quar(world, session),
        (65..=66, Some(session)) => Said::plain(b'U', &[session]),
        _ => clients::speak(world),
    }
}

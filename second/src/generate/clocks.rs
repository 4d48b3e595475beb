//! Times: as clients send them, at and beside deadlines, and at the end of all time.

use super::world::World;
use crate::numbers::LAST_TIME;

/// The time of an ordinary line: mostly soon after the clock, seldom a lifetime later, seldom late.
pub fn ordinary(world: &mut World) -> u64 {
    let clock = world.machine().clock();
    let later = match world.random.below(1000) {
        0..=699 => world.random.below(3),
        700..=969 => world.random.below(20),
        970..=985 => world.random.below(world.machine().read_lifetime()),
        986..=989 => world.random.below(world.machine().write_lifetime()),
        990..=994 => return clock.saturating_sub(1),
        _ => 0,
    };
    clock + later
}

/// A time when hardly any passes.
pub fn still(world: &mut World) -> u64 {
    world.machine().clock() + u64::from(world.random.chance(10))
}

/// A time when every open session has ended.
pub fn after_all(world: &World) -> u64 {
    world.machine().clock() + world.machine().write_lifetime()
}

/// A time at or beside a deadline or the clock.
pub fn at_edge(world: &mut World) -> u64 {
    let clock = world.machine().clock();
    let deadlines: Vec<u64> = world.machine().deadlines().take(4).collect();
    match (world.random.below(100), world.random.pick(&deadlines)) {
        (0..=29, Some(deadline)) => (deadline + world.random.below(3)).saturating_sub(1),
        (30..=34, _) => clock.saturating_sub(1),
        (35..=44, _) => clock + 1,
        (45..=46, _) => world.random.pick(&[LAST_TIME + 1, u64::MAX]).unwrap_or(clock),
        (47..=56, _) => clock + world.random.below(4),
        _ => clock,
    }
}

/// A time not long before the last, to begin the end with.
pub fn near_end(world: &mut World) -> u64 {
    LAST_TIME - world.random.below(300)
}

/// A time at or beside the last.
pub fn at_end(world: &mut World) -> u64 {
    let times =
        [LAST_TIME, LAST_TIME, LAST_TIME, LAST_TIME - 1, LAST_TIME + 1, LAST_TIME + 2, u64::MAX];
    world.random.pick(&times).unwrap_or(LAST_TIME)
}

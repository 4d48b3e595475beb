//! START: buffers of every kind and length, lifetimes in and out of range.

use second::generate::Random;
use crate::states::full;
use crate::tally::{told, wanted, Tally};
use compare::proved;
use second::lent;
use second::numbers::{LONGEST_LIFETIME, STATE_BYTES};

/// What START can answer.
pub fn answers() -> Vec<String> {
    wanted(&["READY"], [1, 3])
}

/// A lifetime: most often in range, at times at or past an end.
fn lifetime(random: &mut Random) -> u64 {
    match random.below(12) {
        0 => 0,
        1 => 1,
        2 => LONGEST_LIFETIME,
        3 => LONGEST_LIFETIME + 1,
        4 => random.any(),
        5 => (1 << 32) + 1 + random.below(LONGEST_LIFETIME),
        _ => 1 + random.below(LONGEST_LIFETIME),
    }
}

/// A buffer that holds anything: nothing, a full state, dirt; most often of the right length.
fn buffer(random: &mut Random, full: &[u8]) -> Vec<u8> {
    let length = match random.below(8) {
        0 => [0, 1, 63, 64, STATE_BYTES - 1, STATE_BYTES + 1, 2 * STATE_BYTES][random.below(7) as usize],
        1 => random.below(70_000) as usize,
        _ => STATE_BYTES,
    };
    let mut buffer = match random.below(3) {
        0 => full.to_vec(),
        1 => vec![random.any() as u8; length],
        _ => (0..length.div_ceil(8)).flat_map(|_| random.any().to_le_bytes()).collect(),
    };
    buffer.resize(length, 0);
    buffer
}

pub fn compare(seed: u64, more: u64) -> Tally {
    let mut random = Random::new(seed);
    let mut tally = Tally::default();
    let full = full();
    for _ in 0..4_000 * more {
        let mut ours = buffer(&mut random, &full);
        let mut theirs = ours.clone();
        let (read, write) = (lifetime(&mut random), lifetime(&mut random));
        let proved = proved::start(&mut ours, read, write);
        let second = lent::start(&mut theirs, read, write);
        tally.look(("START", ours.len(), read, write), proved, told(second), ours == theirs);
        tally.answered(told(second));
    }
    tally
}

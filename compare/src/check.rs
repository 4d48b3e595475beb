//! The well-formed check: the same buffers to both.

use second::generate::Random;
use crate::states::{at_last_step, at_last_time, at_the_end, crowded, fresh, full, renumbered, used, HARD};
use compare::proved;
use second::lent::well_formed;
use second::numbers::STATE_BYTES;

/// How many buffers were looked at, how many of them both take for well formed, and on how many the two differ.
#[derive(Default)]
pub struct Tally {
    pub cases: u64,
    pub formed: u64,
    pub differences: u64,
}

impl Tally {
    fn look(&mut self, state: &[u8]) {
        let ours = proved::well_formed(state);
        self.cases += 1;
        self.formed += u64::from(ours);
        self.differences += u64::from(ours != well_formed(state));
    }
}

/// Every single bit of a state turned over.
fn flips(tally: &mut Tally, state: &mut [u8]) {
    for bit in 0..state.len() * 8 {
        state[bit / 8] ^= 1 << (bit % 8);
        tally.look(state);
        state[bit / 8] ^= 1 << (bit % 8);
    }
}

/// 1 to 64 bytes changed: to anything, to a small number, or to what stands elsewhere in the state.
fn damages(tally: &mut Tally, random: &mut Random, states: &[Vec<u8>], rounds: u64) {
    for round in 0..rounds {
        let mut state = states[(round % states.len() as u64) as usize].clone();
        for _ in 0..=random.below(64) * u64::from(random.below(3) == 0) {
            let at = random.below(STATE_BYTES as u64) as usize;
            state[at] = match random.below(3) {
                0 => random.any() as u8,
                1 => random.below(4) as u8,
                _ => state[random.below(STATE_BYTES as u64) as usize],
            };
        }
        tally.look(&state);
    }
}

/// A record of a table copied over another of the same table: numbers, tokens and rows that stand twice.
fn doubles(tally: &mut Tally, random: &mut Random, states: &[Vec<u8>], rounds: u64) {
    const TABLES: [(usize, usize, u64); 3] = [(64, 80, 256), (20_544, 72, 384), (48_192, 16, 128)];
    for round in 0..rounds {
        let mut state = states[(round % states.len() as u64) as usize].clone();
        let (from, width, count) = TABLES[random.below(3) as usize];
        let one = from + random.below(count) as usize * width;
        let other = from + random.below(count) as usize * width;
        let part = if random.below(2) == 0 { width } else { 1 + random.below(width as u64) as usize };
        state.copy_within(one..one + part, other);
        tally.look(&state);
    }
}

/// Lengths beside the right one, and buffers of random bytes.
fn shapes(tally: &mut Tally, random: &mut Random, state: &[u8]) {
    let long: Vec<u8> = state.iter().copied().chain([0]).collect();
    for length in [0, 1, 63, 64, STATE_BYTES - 1, STATE_BYTES, STATE_BYTES + 1] {
        tally.look(&long[..length]);
    }
    for _ in 0..100 {
        let length = [STATE_BYTES, random.below(70_000) as usize][random.below(2) as usize];
        let bytes: Vec<u8> = (0..length).map(|_| random.any() as u8).collect();
        tally.look(&bytes);
    }
}

/// All of it, from a seed; `more` multiplies the random part.
pub fn compare(seed: u64, more: u64) -> Tally {
    let mut random = Random::new(seed);
    let mut tally = Tally::default();
    let mut states = vec![fresh(), full(), at_the_end(full(), 0), at_the_end(full(), 1), crowded()];
    states.extend([at_last_time(&full(), 0), at_last_step(&at_last_time(&crowded(), 1))]);
    states.extend((1..20).map(|n| used(&mut random, n * 60, 4 + n)));
    let easy = [full(), crowded(), used(&mut random, 1_200, 24)];
    states.extend(easy.iter().flat_map(|state| HARD.map(|number| renumbered(state, number))));
    for state in &states {
        tally.look(state);
    }
    let mut rich = used(&mut random, 900, 24);
    flips(&mut tally, &mut rich);
    states.push(rich);
    damages(&mut tally, &mut random, &states, 60_000 * more);
    doubles(&mut tally, &mut random, &states, 60_000 * more);
    shapes(&mut tally, &mut random, &states[4]);
    tally
}

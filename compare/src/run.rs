//! The commands: the same sequences to both, the answer and all 65,536 bytes compared after every one.

use crate::commands::{self, command};
use second::generate::Random;
use crate::show;
use crate::states::{at_last_step, at_last_time, at_the_end, crowded, fresh, full, stands_at, used, ENDS};
use crate::tally::{told, wanted, Tally};
use compare::proved;
use second::lent;
use second::lent::layout::{rows, u32_at, u64_at, Bytes, CLOCK, NEXT_SESSION, ROW_KEY, ROW_SESSION};
use second::numbers::LAST_TIME;
use second::Command;

/// What the commands can answer, and the ends they are to be run at.
pub fn answers() -> Vec<String> {
    let words = [
        "SESSION", "HIT", "ASK", "BACKOFF", "LEASE", "STORED", "IGNORED", "HELD", "GRANTED", "ABORTED", "STAGED", "REPEATED", "DROPPED",
        "VALIDATED", "LOST", "DONE", "UNDONE", "EVICTED", "EMPTY", "TICKED",
    ];
    let mut wanted = wanted(&words, 1..=13);
    wanted.extend(ENDS.iter().map(|end| format!("at {end}")));
    wanted.push(OUTSIDE.to_string());
    wanted
}

/// A command whose number is none of the list.
const OUTSIDE: &str = "a number outside";

/// The same state twice, one for each, and what was seen of them.
struct Pair<'a> {
    tally: &'a mut Tally,
    shown: &'a mut Tally,
    random: &'a mut Random,
    ours: Vec<u8>,
    theirs: Vec<u8>,
}

impl Pair<'_> {
    /// One command on both. The numbers that it doesn't have are anything.
    fn step(&mut self, now: u64, command: Command, value: &[u8]) {
        let mut numbers = proved::numbers(command);
        numbers[Command::fields(command.number())..].fill_with(|| self.random.any());
        let proved = proved::run(&mut self.ours, now, command.number(), numbers, value);
        let second = told(lent::run(&mut self.theirs, now, command, value));
        self.tally.look((now, command, value), proved, second, self.ours == self.theirs);
        self.tally.answered(second);
        for (end, _) in ENDS.iter().zip(stands_at(&self.theirs)).filter(|(_, there)| *there) {
            self.tally.saw(&format!("at {end}"));
        }
    }

    /// A command whose number is none of the list: ARG, behind STATE and CLOCK, as of a key over 255.
    fn outside(&mut self, now: u64) {
        let number = [0, 12, 13, u64::MAX, self.random.any()][self.random.below(5) as usize];
        let proved = proved::run(&mut self.ours, now, number, [0; 4], b"");
        let second = told(lent::run(&mut self.theirs, now, Command::Evict { key: 256 }, b""));
        self.tally.look((now, number), proved, second, self.ours == self.theirs);
        self.tally.saw(OUTSIDE);
    }

    /// A command on a damaged copy, or on one of another length.
    fn damaged(&mut self, now: u64, command: Command, value: &[u8]) {
        let mut state = self.theirs.clone();
        match self.random.below(4) {
            0 => drop(state.pop()),
            1 => state.push(0),
            2 => state.truncate(self.random.below(65_536) as usize),
            _ => {
                let at = self.random.below(65_536) as usize;
                state[at] ^= 1 << self.random.below(8);
            }
        }
        let mut other = Pair { tally: self.tally, shown: self.shown, random: self.random, ours: state.clone(), theirs: state };
        other.step(now, command, value);
        other.show(256);
    }

    /// Both calls of SHOW on the state as it stands.
    fn show(&mut self, near: u64) {
        let (session, key) = self.asked(near);
        show::compare(self.shown, &self.theirs, session, key);
    }

    /// A session and a key to be shown: those of a row half the time, else anyone's.
    fn asked(&mut self, near: u64) -> (u64, u64) {
        let Ok(state) = <&Bytes>::try_from(&self.theirs[..]) else {
            return (0, self.random.below(near));
        };
        let row = commands::taken(self.random, rows(state), ROW_SESSION);
        let (session, key) = row.map_or((1, 0), |row| (u32_at(row, ROW_SESSION), u64::from(row[ROW_KEY])));
        match self.random.below(16) {
            0..=7 => (session, key),
            8..=10 => (0, self.random.below(near)),
            11 => (session, self.random.below(near)),
            12 => (0, key),
            13 => (u32_at(state, NEXT_SESSION), key),
            14 => (self.random.any(), self.random.below(258)),
            _ => (session, 256 + self.random.below(2) * self.random.any() / 2),
        }
    }

    /// A whole session on one key: opened, quarantined, staged with a repeat, read, validated and finished.
    fn session(&mut self, now: u64, near: u64) {
        let session = u32_at(&self.theirs, NEXT_SESSION);
        let (key, kind) = (self.random.below(near), 2 + self.random.below(2));
        self.step(now, Command::Begin, b"");
        self.step(now, Command::Quar { session, key, kind }, b"");
        for step in [0, 0, 1, 2] {
            let width = 8 * self.random.below(4);
            let value = self.random.below(1 << width).to_string();
            let command = match kind {
                2 => Command::Stage { session, step, key },
                _ => Command::Delta { session, step, key, operation: 1 + self.random.below(4) },
            };
            self.step(now, command, value.as_bytes());
        }
        self.step(now, Command::Get { session, key }, b"");
        self.step(now, Command::Validate { session, n: 3 }, b"");
        self.step(now, Command::Done { session }, b"");
    }

    /// The time of the next command: soon after the clock, seldom a lifetime later, seldom before it or past the last.
    fn time(&mut self) -> u64 {
        let clock = u64_at(&self.theirs, CLOCK);
        let later = match self.random.below(1_200) {
            0 => 1_000,
            1 => 5_000,
            2 => 4_999,
            3..=22 => return clock.wrapping_sub(1),
            23..=28 => return LAST_TIME + 1 + self.random.below(2),
            29 => return self.random.any(),
            _ => self.random.below(30) / 20,
        };
        (clock + later).min(LAST_TIME)
    }

    /// So many commands, the clock moving on by small and by large steps.
    fn sequence(&mut self, commands: u64, near: u64) {
        for _ in 0..commands {
            let (command, value) = command(self.random, &self.theirs, near);
            let now = self.time();
            match self.random.below(120) {
                0..=2 => self.session(now, near),
                3 => self.outside(now),
                4 => self.damaged(now, command, &value),
                _ => {}
            }
            self.step(now, command, &value);
            self.show(near);
        }
    }
}

/// The state that a sequence begins with.
fn beginning(random: &mut Random, round: u64, near: u64) -> Vec<u8> {
    let nth = round / 8;
    match round % 8 {
        0 => fresh(),
        1 => full(),
        2 => crowded(),
        3 => at_the_end(used(random, 300, near), (nth % 3) as u32),
        4 => at_last_time(&used(random, 200, near), nth % 3),
        5 => at_last_step(&used(random, 200, near)),
        6 => at_last_time(&at_last_step(&at_the_end(crowded(), (nth % 3) as u32)), 10),
        _ => used(random, 200, near),
    }
}

/// The tallies of the commands and of SHOW, which is asked after each of them.
pub fn compare(seed: u64, more: u64) -> (Tally, Tally) {
    let mut random = Random::new(seed);
    let (mut tally, mut shown) = (Tally::default(), Tally::default());
    for round in 0..200 * more {
        let near = 2 + round % 40;
        let from = beginning(&mut random, round, near);
        let mut pair = Pair { tally: &mut tally, shown: &mut shown, random: &mut random, ours: from.clone(), theirs: from };
        pair.sequence(2_000, 2 + round % 11);
    }
    (tally, shown)
}

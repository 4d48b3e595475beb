//! What several tests use.
#![allow(dead_code)]

use second::generate::{generate, Profile, Random};
use second::lent::{self, encode, well_formed};
use second::numbers::STATE_BYTES;
use second::rehearsal::{rehearse, LentState};
use second::tables::{SessionRecord, Tables};
use second::{Answer, Command, Machine};

/// The machine and a lent state side by side: every command goes to both, and they must agree on
/// the answer and on every byte.
pub struct Both {
    pub machine: Machine,
    pub lent: Vec<u8>,
}

impl Both {
    /// The fresh state of these lifetimes.
    pub fn fresh(read: u64, write: u64) -> Both {
        let mut lent = vec![0xa5; STATE_BYTES];
        assert_eq!(lent::start(&mut lent, read, write), Answer::Ready);
        let both = Both { machine: Machine::fresh(read, write), lent };
        both.agree();
        both
    }

    /// The state that sound tables say.
    pub fn of(tables: &Tables) -> Both {
        let both = Both { machine: Machine::of_tables(tables), lent: encode(tables) };
        both.agree();
        both
    }

    pub fn run(&mut self, now: u64, command: Command, value: &[u8]) -> Answer {
        let before = self.lent.clone();
        let answer = lent::run(&mut self.lent, now, command, value);
        assert_eq!(self.machine.run(now, command, value), answer, "{now} {command:?} {value:?}");
        if answer.is_refused() {
            assert!(self.lent == before, "{command:?} {answer:?} left a change");
        }
        self.agree();
        answer
    }

    /// Runs a command that has no value beside it.
    pub fn plain(&mut self, now: u64, command: Command) -> Answer {
        self.run(now, command, &[])
    }

    /// SHOW on both, both calls.
    pub fn show(&self, session: u64, key: u64) -> Answer {
        let answer = lent::show(&self.lent, session, key);
        let stretch = lent::stretch(&self.lent, session, key);
        let at = stretch.as_ptr() as usize - self.lent.as_ptr() as usize;
        match self.machine.show(session, key) {
            Ok(Some((place, value))) => {
                assert_eq!(answer, Answer::Value(value.len() as u64));
                assert_eq!((at, stretch), (place, &value[..]));
            }
            Ok(None) => assert_eq!((answer, at, stretch.len()), (Answer::None, 0, 0)),
            Err(n) => assert_eq!((answer, at, stretch.len()), (Answer::Refused(n), 0, 0)),
        }
        answer
    }

    /// The value of a HIT.
    pub fn hit(&self, answer: Answer) -> &[u8] {
        match answer {
            Answer::Hit { at, length } => &self.lent[at as usize..(at + length) as usize],
            other => panic!("no HIT: {other:?}"),
        }
    }

    pub fn agree(&self) {
        assert!(encode(&self.machine.tables()) == self.lent, "the bytes differ");
        assert!(well_formed(&self.lent), "a state is not well formed");
    }
}

/// What the two rehearsals print for an input, which must be the same.
pub fn rehearsed(input: &[u8]) -> String {
    let mut own = Vec::new();
    rehearse(Machine::fresh(1, 1), input, &mut own).unwrap();
    let mut on_lent = Vec::new();
    rehearse(LentState::default(), input, &mut on_lent).unwrap();
    assert!(own == on_lent, "the rehearsals differ");
    String::from_utf8(own).unwrap()
}

/// What a rehearsal prints for these lines, without their numbers.
pub fn answers(lines: &[&str]) -> Vec<String> {
    let printed = rehearsed((lines.join("\n") + "\n").as_bytes());
    let answers = printed.lines().take(lines.len());
    answers.map(|line| line.split_once(' ').unwrap().1.to_string()).collect()
}

/// A generated input.
pub fn generated(seed: u64, lines: u64, profile: Profile) -> Vec<u8> {
    let mut input = Vec::new();
    generate(seed, lines, profile, &mut input).unwrap();
    input
}

/// The lent state after a generated input.
pub fn state_after(seed: u64, lines: u64, profile: Profile) -> Vec<u8> {
    let input = generated(seed, lines, profile);
    let state = rehearse(LentState::default(), &input[..], std::io::sink()).unwrap();
    state.bytes().to_vec()
}

/// A session of the tables, if there is one.
pub fn any_session(random: &mut Random, tables: &Tables) -> Option<SessionRecord> {
    let live: Vec<SessionRecord> = tables.sessions.iter().flatten().copied().collect();
    random.pick(&live)
}

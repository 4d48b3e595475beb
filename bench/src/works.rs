//! The commands that are measured, each piece of work on a state to which it comes again and again.

use crate::plans::{tables, Plan, CLOCK, SESSIONS_END};
use compare::proved;
use second::lent;
use second::tables::Tables;
use second::value::Value;
use second::Command;
use std::hint::black_box;

/// A command at its time, its value beside it.
type Call = (u64, Command, &'static [u8]);

/// The key that GET and the session are about; no row is on it.
const KEY: u64 = 200;
/// The next numbers, past all that a light and a full state have given.
const NEXT: u64 = 1_000;
const WRITTEN: &[u8] = b"floors 4, 12 and 30";

/// What is measured: how the plan's tables are made ready for it, its commands, and the words they answer.
pub struct Work {
    pub name: &'static str,
    ready: fn(&mut Tables),
    calls: &'static [Call],
    words: &'static [&'static str],
}

pub const WORKS: [Work; 4] = [
    Work { name: "get-hit", ready: with_value, calls: &[(CLOCK, Command::Get { session: 0, key: KEY }, b"")], words: &["HIT"] },
    Work { name: "get-miss", ready: without_value, calls: &[(CLOCK, Command::Get { session: 0, key: KEY }, b"")], words: &["LEASE"] },
    Work {
        name: "session",
        ready: with_room,
        calls: &[
            (CLOCK, Command::Begin, b""),
            (CLOCK, Command::Quar { session: NEXT, key: KEY, kind: 2 }, b""),
            (CLOCK, Command::Stage { session: NEXT, step: 0, key: KEY }, WRITTEN),
            (CLOCK, Command::Validate { session: NEXT, n: 1 }, b""),
            (CLOCK, Command::Done { session: NEXT }, b""),
        ],
        words: &["SESSION", "GRANTED", "STAGED", "VALIDATED", "DONE"],
    },
    Work { name: "sweep", ready: with_value, calls: &[(SESSIONS_END, Command::Tick, b"")], words: &["TICKED"] },
];

fn with_value(tables: &mut Tables) {
    tables.keys[KEY as usize].value = Value::of(WRITTEN);
}

fn without_value(tables: &mut Tables) {
    tables.keys[KEY as usize].value = None;
    tables.keys[KEY as usize].lease = None;
}

/// One session fewer, with its rows, where all are taken.
fn with_room(tables: &mut Tables) {
    with_value(tables);
    if let Some(last) = tables.sessions.last_mut().and_then(Option::take) {
        for row in &mut tables.rows {
            row.take_if(|row| row.session == last.number);
        }
    }
}

fn run_proved(state: &mut [u8], now: u64, command: Command, value: &[u8]) -> proved::Told {
    proved::run(state, now, command.number(), proved::numbers(command), value)
}

/// A piece of work on a state: the states that its commands meet, and what has to be put back behind it.
pub struct Trial {
    state: Vec<u8>,
    met: Vec<Vec<u8>>,
    calls: &'static [Call],
    changed: Vec<usize>,
}

/// The state is put back by blocks of so many bytes, those that changed.
const BLOCK: usize = 64;

impl Trial {
    /// Runs the work once by both programs, which have to agree.
    pub fn new(plan: &Plan, work: &Work) -> Trial {
        let mut tables = tables(plan);
        (tables.next_session, tables.next_token) = (NEXT, NEXT);
        (work.ready)(&mut tables);
        let state = lent::encode(&tables);
        let (mut ours, mut theirs) = (state.clone(), state.clone());
        let mut met = Vec::new();
        for ((now, command, value), word) in work.calls.iter().zip(work.words) {
            met.push(theirs.clone());
            let answer = lent::run(&mut theirs, *now, *command, value);
            run_proved(&mut ours, *now, *command, value);
            assert!(answer.word() == *word && ours == theirs, "{} on {}: {answer:?}", work.name, plan.name);
        }
        let changed = (0..state.len() / BLOCK).map(|n| n * BLOCK).filter(|at| state[*at..at + BLOCK] != theirs[*at..at + BLOCK]);
        Trial { changed: changed.collect(), state, met, calls: work.calls }
    }

    /// How many commands the work has.
    pub fn commands(&self) -> usize {
        self.calls.len()
    }

    /// The work so many times, or a part of it.
    pub fn repeat(&mut self, part: Part, times: u64) {
        for _ in 0..times {
            match part {
                Part::Proved => self.work(|state, (now, command, value)| run_proved(state, now, command, value)),
                Part::Second => self.work(|state, (now, command, value)| lent::run(state, now, command, value)),
                Part::ProvedCheck => self.check(proved::well_formed),
                Part::SecondCheck => self.check(lent::well_formed),
                Part::Nothing => self.work(|_, _| ()),
            }
        }
    }

    fn work<A>(&mut self, run: impl Fn(&mut [u8], Call) -> A) {
        for call in self.calls {
            black_box(run(black_box(&mut self.state), *call));
        }
        for at in &self.changed {
            self.state[*at..at + BLOCK].copy_from_slice(&self.met[0][*at..at + BLOCK]);
        }
    }

    /// The check alone, of each state that a command meets.
    fn check(&self, judge: fn(&[u8]) -> bool) {
        for state in &self.met {
            assert!(judge(black_box(state)));
        }
    }
}

/// What of a piece of work is measured: it, the check that is in it, and what the putting back costs.
#[derive(Clone, Copy)]
pub enum Part {
    Proved,
    Second,
    ProvedCheck,
    SecondCheck,
    Nothing,
}

pub const PARTS: [(&str, Part); 5] = [
    ("proved", Part::Proved),
    ("second", Part::Second),
    ("proved-check", Part::ProvedCheck),
    ("second-check", Part::SecondCheck),
    ("nothing", Part::Nothing),
];

//! The rehearsal: input lines run on a cache beside a model of the register, one output line each.

pub mod cache;
pub mod line;
pub mod lines;
pub mod print;
mod program;
pub mod register;

pub use cache::{Cache, LentState};
pub use program::rehearse;

use crate::answer::Answer;
use crate::command::Command;
use line::Line;
use print::Detail;
use register::Register;

/// A cache, the register's model, and what has been counted.
pub struct Rehearsal<C> {
    pub cache: C,
    pub register: Register,
    is_started: bool,
    lines: u64,
    broken: u64,
}

impl<C: Cache> Rehearsal<C> {
    /// Before the first line; no A line has answered READY yet.
    pub fn new(cache: C) -> Rehearsal<C> {
        Rehearsal { cache, register: Register::default(), is_started: false, lines: 0, broken: 0 }
    }

    /// Takes a line without its LF and prints what it answers.
    pub fn line(&mut self, line: &[u8], out: &mut Vec<u8>) {
        self.lines += 1;
        match line::read(line) {
            Some(Line::Start { read, write }) if !self.is_started => self.start(read, write, out),
            Some(Line::Command { now, command, value }) if self.is_started => {
                self.command(now, command, &value, out)
            }
            Some(Line::Write { session, key, value }) if self.is_started => {
                let rule = self.rule_of_write(session, key);
                self.register.write(key, value);
                self.print("WRITTEN", Detail::None, rule, out);
            }
            _ => self.print("UNREADABLE", Detail::None, 0, out),
        }
    }

    /// Prints the end line.
    pub fn end(&self, out: &mut Vec<u8>) {
        print::end(out, self.lines, self.broken);
    }

    fn start(&mut self, read: u64, write: u64, out: &mut Vec<u8>) {
        let answer = self.cache.start(read, write);
        self.is_started = answer == Answer::Ready;
        self.print(answer.word(), number_of(answer), 0, out);
    }

    fn command(&mut self, now: u64, command: Command, value: &[u8], out: &mut Vec<u8>) {
        let differs = self.would_break_rule_4(command);
        let answer = self.cache.run(now, command, value);
        let rule = self.rule_of(command, value, answer, differs);
        self.broken += u64::from(rule != 0);
        let detail = match (command, answer) {
            (Command::Get { session, key }, Answer::Hit { at, length }) => {
                Detail::Value(self.cache.hit(session, key, at, length))
            }
            _ => number_of(answer),
        };
        print::line(out, self.lines, answer.word(), detail, rule);
    }

    /// Whether a DONE, if it is accepted, caches a value that the register doesn't hold.
    fn would_break_rule_4(&self, command: Command) -> bool {
        match command {
            Command::Done { session } => {
                !self.cache.all_staged(session, |key, value| **self.register.value(key) == *value)
            }
            _ => false,
        }
    }

    /// The rule that the command broke by its answer, or 0; notes the register's value at a grant.
    fn rule_of(&mut self, command: Command, value: &[u8], answer: Answer, differs: bool) -> u64 {
        match (command, answer) {
            (Command::Get { key, .. }, Answer::Lease(_)) => {
                self.register.grant(key as u8);
                0
            }
            (Command::Fill { key, .. }, Answer::Stored) => {
                u64::from(!self.register.allows_fill(key as u8, value))
            }
            (Command::Undo { session }, Answer::Undone) => {
                3 * u64::from(self.register.has_written_for(session))
            }
            (Command::Done { .. }, Answer::Done) => 4 * u64::from(differs),
            _ => 0,
        }
    }

    /// Rule 2, or 0: the register writes a key only for a live sealed session with a row on it. A
    /// write for a live session counts for rule 3, also where it breaks rule 2.
    fn rule_of_write(&mut self, session: u64, key: u8) -> u64 {
        let cache = &self.cache;
        if cache.is_live(session) {
            self.register.note_write_for(session, |session| cache.is_live(session));
        }
        2 * u64::from(!cache.may_write(session, key))
    }

    fn print(&mut self, word: &str, detail: Detail, rule: u64, out: &mut Vec<u8>) {
        self.broken += u64::from(rule != 0);
        print::line(out, self.lines, word, detail, rule);
    }
}

/// The detail of an answer that carries a number, or none.
fn number_of(answer: Answer) -> Detail<'static> {
    answer.detail().map_or(Detail::None, Detail::Number)
}

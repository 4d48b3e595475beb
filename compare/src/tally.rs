//! What was compared, what was seen of it, and what was never seen.

use compare::proved::Told;
use second::Answer;
use std::collections::BTreeMap;
use std::fmt::Debug;

/// How many differences are told in full.
const TOLD: u64 = 5;

/// How many cases were run, on how many the two differ, and how often each answer, refusal and end was seen.
#[derive(Default)]
pub struct Tally {
    pub cases: u64,
    pub differences: u64,
    seen: BTreeMap<String, u64>,
}

impl Tally {
    /// One case: the two answers, and whether all bytes agree.
    pub fn look<A: PartialEq + Debug>(&mut self, what: impl Debug, proved: A, second: A, same_bytes: bool) {
        self.cases += 1;
        if proved == second && same_bytes {
            return;
        }
        self.differences += 1;
        if self.differences <= TOLD {
            eprintln!("difference: {what:?}: proved {proved:?}, second {second:?}, bytes agree: {same_bytes}");
        }
    }

    /// Counts an answer by its word, a refusal by its number.
    pub fn answered(&mut self, (word, detail, _): Told) {
        match word {
            "REFUSED" => self.saw(&refused(detail)),
            _ => self.saw(word),
        }
    }

    pub fn saw(&mut self, name: &str) {
        match self.seen.get_mut(name) {
            Some(times) => *times += 1,
            None => drop(self.seen.insert(name.to_string(), 1)),
        }
    }

    /// Prints the tally and what of `wanted` was never seen; whether there is neither that nor a difference.
    pub fn report(&self, name: &str, wanted: &[String]) -> bool {
        println!("{name}: {} cases, {} differences", self.cases, self.differences);
        for (name, times) in &self.seen {
            println!("  {name:<20} {times:>8}");
        }
        let missing: Vec<&String> = wanted.iter().filter(|name| !self.seen.contains_key(*name)).collect();
        for name in &missing {
            println!("  never seen: {name}");
        }
        missing.is_empty() && self.differences == 0
    }
}

/// The name of a refusal, so that they sort by number.
pub fn refused(number: u64) -> String {
    format!("REFUSED {number:>2}")
}

/// These words, and the refusals of these numbers.
pub fn wanted(words: &[&str], refusals: impl IntoIterator<Item = u64>) -> Vec<String> {
    words.iter().map(|word| word.to_string()).chain(refusals.into_iter().map(refused)).collect()
}

/// An answer of the second program, as the proved library tells its own.
pub fn told(answer: Answer) -> Told {
    match answer {
        Answer::Hit { at, length } => ("HIT", length, at),
        other => (other.word(), other.detail().unwrap_or(0), 0),
    }
}

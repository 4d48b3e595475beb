//! A line as a client says it, before it has a time.

use crate::rehearsal::print::{decimal, hex};

#[derive(Clone, Debug)]
pub struct Said {
    pub letter: u8,
    pub numbers: Vec<u64>,
    pub value: Option<Vec<u8>>,
}

impl Said {
    /// A line without a value.
    pub fn plain(letter: u8, numbers: &[u64]) -> Said {
        Said { letter, numbers: numbers.to_vec(), value: None }
    }

    /// A line with a value or an operand.
    pub fn with(letter: u8, numbers: &[u64], value: &[u8]) -> Said {
        Said { letter, numbers: numbers.to_vec(), value: Some(value.to_vec()) }
    }

    /// The line at a time, without its LF. An A line has none.
    pub fn line(&self, now: u64) -> Vec<u8> {
        let mut line = Vec::new();
        if self.letter != b'A' {
            decimal(&mut line, now);
            line.push(b' ');
        }
        line.push(self.letter);
        for number in &self.numbers {
            line.push(b' ');
            decimal(&mut line, *number);
        }
        if let Some(value) = &self.value {
            line.push(b' ');
            hex(&mut line, value);
        }
        line
    }
}

//! What an input line says: time, letter, fields, single spaces between.

use crate::command::{is_key, Command};
use crate::value::Value;

/// The longest line that can be read, without its LF.
pub const LINE_BYTES: usize = 200;

/// A line that can be read.
#[derive(Clone, Copy, Debug, PartialEq, Eq)]
pub enum Line {
    /// `A r w`: START with these lifetimes.
    Start { read: u64, write: u64 },
    /// `C s k v`: the register writes.
    Write { session: u64, key: u8, value: Value },
    /// Any other letter: a command at its time, the value or operand beside it.
    Command { now: u64, command: Command, value: Hex },
}

/// The letters of the commands, in the order of their numbers from 1.
pub const LETTERS: &[u8; 11] = b"BGFQSDVXUET";

/// Reads a line; none if it is UNREADABLE whatever came before it.
pub fn read(line: &[u8]) -> Option<Line> {
    if line.len() > LINE_BYTES {
        return None;
    }
    let mut fields = line.split(|byte| *byte == b' ');
    let first = fields.next()?;
    let line = match first {
        b"A" => Line::Start { read: number(fields.next()?)?, write: number(fields.next()?)? },
        _ => read_timed(number(first)?, &mut fields)?,
    };
    match fields.next() {
        Some(_) => None,
        None => Some(line),
    }
}

/// The letter and the fields behind the time.
fn read_timed<'a>(now: u64, fields: &mut impl Iterator<Item = &'a [u8]>) -> Option<Line> {
    let &[letter] = fields.next()? else {
        return None;
    };
    if letter == b'C' {
        return read_write(fields);
    }
    let place = LETTERS.iter().position(|known| *known == letter)?;
    let command = place as u64 + 1;
    let mut numbers = [0; 4];
    for field in &mut numbers[..Command::fields(command)] {
        *field = number(fields.next()?)?;
    }
    let value = match Command::has_value(command) {
        true => Hex::read(fields.next()?)?,
        false => Hex::EMPTY,
    };
    Some(Line::Command { now, command: Command::of(command, numbers)?, value })
}

/// A register write: its key and value are in range or the line can't be read.
fn read_write<'a>(fields: &mut impl Iterator<Item = &'a [u8]>) -> Option<Line> {
    let session = number(fields.next()?)?;
    let key = number(fields.next()?).filter(|key| is_key(*key))? as u8;
    let value = Value::of(&Hex::read(fields.next()?)?)?;
    Some(Line::Write { session, key, value })
}

/// A decimal number without leading zeros, at most 2^64 - 1.
fn number(field: &[u8]) -> Option<u64> {
    if field.is_empty() || (field[0] == b'0' && field.len() > 1) {
        return None;
    }
    let mut number: u64 = 0;
    for byte in field {
        if !byte.is_ascii_digit() {
            return None;
        }
        number = number.checked_mul(10)?.checked_add(u64::from(byte - b'0'))?;
    }
    Some(number)
}

/// The bytes that a field of hex digits says; a line has no room for more than 100.
#[derive(Clone, Copy, Debug, PartialEq, Eq)]
pub struct Hex {
    length: usize,
    bytes: [u8; LINE_BYTES / 2],
}

impl Hex {
    const EMPTY: Hex = Hex { length: 0, bytes: [0; LINE_BYTES / 2] };

    /// Lower-case hex, two digits a byte, or `-` for empty.
    fn read(field: &[u8]) -> Option<Hex> {
        let mut hex = Hex::EMPTY;
        if field == b"-" {
            return Some(hex);
        }
        let (pairs, odd) = field.as_chunks::<2>();
        if pairs.is_empty() || !odd.is_empty() || pairs.len() > hex.bytes.len() {
            return None;
        }
        for (byte, [high, low]) in hex.bytes.iter_mut().zip(pairs) {
            *byte = 16 * digit(*high)? + digit(*low)?;
        }
        hex.length = pairs.len();
        Some(hex)
    }
}

impl std::ops::Deref for Hex {
    type Target = [u8];

    fn deref(&self) -> &[u8] {
        &self.bytes[..self.length]
    }
}

fn digit(byte: u8) -> Option<u8> {
    match byte {
        b'0'..=b'9' => Some(byte - b'0'),
        b'a'..=b'f' => Some(byte - b'a' + 10),
        _ => None,
    }
}

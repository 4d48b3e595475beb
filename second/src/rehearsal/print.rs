//! Output lines.

use crate::count;

/// What stands in the column of details.
pub enum Detail<'a> {
    None,
    Number(u64),
    /// A value in lower-case hex, `-` for empty.
    Value(&'a [u8]),
}

/// Line number, word, detail, number of the rule broken or 0.
pub fn line(out: &mut Vec<u8>, number: u64, word: &str, detail: Detail, rule: u64) {
    decimal(out, number);
    out.push(b' ');
    out.extend_from_slice(word.as_bytes());
    out.push(b' ');
    match detail {
        Detail::None => out.push(b'-'),
        Detail::Number(number) => decimal(out, number),
        Detail::Value(value) => hex(out, value),
    }
    out.push(b' ');
    decimal(out, rule);
    out.push(b'\n');
}

/// The end line: lines read, and lines with a rule broken.
pub fn end(out: &mut Vec<u8>, lines: u64, broken: u64) {
    out.extend_from_slice(b"end ");
    decimal(out, lines);
    out.push(b' ');
    decimal(out, broken);
    out.push(b'\n');
}

pub fn decimal(out: &mut Vec<u8>, number: u64) {
    let (digits, first) = count::digits(number);
    out.extend_from_slice(&digits[first..]);
}

pub fn hex(out: &mut Vec<u8>, value: &[u8]) {
    const DIGITS: &[u8; 16] = b"0123456789abcdef";
    if value.is_empty() {
        out.push(b'-');
    }
    for byte in value {
        out.push(DIGITS[usize::from(byte >> 4)]);
        out.push(DIGITS[usize::from(byte & 15)]);
    }
}

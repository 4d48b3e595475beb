//! Counts in ASCII digits, and what the four operations of DELTA make of a value.

use crate::numbers::{APPEND, DECREMENT, INCREMENT, PREPEND};
use crate::value::Value;

/// The longest run of digits that is a count.
const MOST_DIGITS: usize = 20;

/// The count that these bytes say: 1 to 20 ASCII digits, at most 2^64 - 1, digits only.
pub fn read(bytes: &[u8]) -> Option<u64> {
    if bytes.is_empty() || bytes.len() > MOST_DIGITS {
        return None;
    }
    let mut count: u64 = 0;
    for &byte in bytes {
        if !byte.is_ascii_digit() {
            return None;
        }
        count = count.checked_mul(10)?.checked_add(u64::from(byte - b'0'))?;
    }
    Some(count)
}

/// The count in decimal without a leading zero: where its digits begin in the 20 bytes.
pub fn digits(mut count: u64) -> ([u8; MOST_DIGITS], usize) {
    let mut bytes = [b'0'; MOST_DIGITS];
    let mut first = MOST_DIGITS;
    loop {
        first -= 1;
        bytes[first] = b'0' + (count % 10) as u8;
        count /= 10;
        if count == 0 {
            return (bytes, first);
        }
    }
}

/// The count as a value.
fn written(count: u64) -> Option<Value> {
    let (bytes, first) = digits(count);
    Value::of(&bytes[first..])
}

/// What the operation makes of the value: none if the result is over 64 bytes or a count can't be
/// read, and then DROP is staged.
pub fn result(operation: u64, value: &[u8], operand: &[u8]) -> Option<Value> {
    match operation {
        APPEND => Value::joined(value, operand),
        PREPEND => Value::joined(operand, value),
        INCREMENT => written(read(value)?.wrapping_add(read(operand)?)),
        DECREMENT => written(read(value)?.saturating_sub(read(operand)?)),
        _ => None,
    }
}

#[cfg(test)]
mod tests {
    use super::*;

    #[test]
    fn what_is_a_count() {
        assert_eq!(read(b"0"), Some(0));
        assert_eq!(read(b"007"), Some(7));
        assert_eq!(read(b"18446744073709551615"), Some(u64::MAX));
        assert_eq!(read(b"00000000000000000001"), Some(1));
        for not in [
            "",
            "18446744073709551616",
            "99999999999999999999",
            "000000000000000000001",
            "018446744073709551615",
            " 1",
            "1 ",
            "+1",
            "-1",
            "1a",
            "0x1",
            "1\0",
        ] {
            assert_eq!(read(not.as_bytes()), None, "{not:?}");
        }
    }

    #[test]
    fn what_the_operations_make() {
        let made = |operation, value: &str, operand: &str| {
            result(operation, value.as_bytes(), operand.as_bytes()).map(|v| v.to_vec())
        };
        assert_eq!(made(APPEND, "ab", "c"), Some(b"abc".to_vec()));
        assert_eq!(made(PREPEND, "ab", "c"), Some(b"cab".to_vec()));
        assert_eq!(made(INCREMENT, "18446744073709551615", "1"), Some(b"0".to_vec()));
        assert_eq!(
            made(INCREMENT, "18446744073709551615", "18446744073709551615").unwrap(),
            b"18446744073709551614"
        );
        assert_eq!(made(DECREMENT, "5", "9"), Some(b"0".to_vec()));
        assert_eq!(made(INCREMENT, "007", "1"), Some(b"8".to_vec()));
        assert_eq!(made(INCREMENT, "18446744073709551616", "1"), None);
        assert_eq!(made(DECREMENT, "5", "x"), None);
        let sixty = "x".repeat(60);
        assert_eq!(made(APPEND, &sixty, "1234").unwrap().len(), 64);
        assert_eq!(made(APPEND, &sixty, "12345"), None);
        assert_eq!(made(PREPEND, &sixty, "12345"), None);
    }
}

//! A value of 0 to 64 bytes, held in place.

use crate::numbers::VALUE_BYTES;
use std::ops::Deref;

/// A value. The bytes behind its length are zero, so equal values are equal records.
#[derive(Clone, Copy, PartialEq, Eq)]
pub struct Value {
    length: u8,
    bytes: [u8; VALUE_BYTES],
}

impl Value {
    /// The empty value, which is a value.
    pub const EMPTY: Value = Value { length: 0, bytes: [0; VALUE_BYTES] };

    /// These bytes as a value; none if they are over 64.
    pub fn of(bytes: &[u8]) -> Option<Value> {
        Value::joined(bytes, &[])
    }

    /// The first bytes and then the second as one value; none if together they are over 64.
    pub fn joined(first: &[u8], second: &[u8]) -> Option<Value> {
        let length = first.len() + second.len();
        if length > VALUE_BYTES {
            return None;
        }
        let mut value = Value::EMPTY;
        value.length = length as u8;
        value.bytes[..first.len()].copy_from_slice(first);
        value.bytes[first.len()..length].copy_from_slice(second);
        Some(value)
    }
}

impl Deref for Value {
    type Target = [u8];

    fn deref(&self) -> &[u8] {
        &self.bytes[..self.length as usize]
    }
}

impl std::fmt::Debug for Value {
    fn fmt(&self, to: &mut std::fmt::Formatter) -> std::fmt::Result {
        write!(to, "Value({:?})", String::from_utf8_lossy(self))
    }
}

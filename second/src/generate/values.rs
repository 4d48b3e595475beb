//! Values and operands that clients send.

use super::random::Random;

/// Counts at the edges.
const COUNTS: [&str; 14] = [
    "0",
    "1",
    "5",
    "9",
    "10",
    "99",
    "007",
    "00",
    "18446744073709551614",
    "18446744073709551615",
    "9223372036854775807",
    "9999999999999999999",
    "10000000000000000000",
    "00000000000000000001",
];

/// What is nearly a count.
const NO_COUNTS: [&str; 14] = [
    "18446744073709551616",
    "18446744073709551617",
    "18446744073709551620",
    "18446744073709551699",
    "99999999999999999999",
    "000000000000000000001",
    "018446744073709551615",
    "",
    " 1",
    "1 ",
    "+1",
    "-1",
    "12a4",
    "1\0",
];

/// A count at an edge, or seldom something that is nearly one.
pub fn edge(random: &mut Random) -> Vec<u8> {
    let texts = if random.chance(90) { &COUNTS } else { &NO_COUNTS };
    random.pick(texts).unwrap_or_default().as_bytes().to_vec()
}

/// A plain count.
pub fn count(random: &mut Random) -> Vec<u8> {
    let bound = random.pick(&[10, 1_000, 1 << 32, u64::MAX]).unwrap_or(10);
    random.below(bound).to_string().into_bytes()
}

/// Any bytes of this length.
pub fn bytes(random: &mut Random, length: u64) -> Vec<u8> {
    (0..length).map(|_| random.any() as u8).collect()
}

/// A value of 0 to 64 bytes: a count, a short text, or any bytes.
pub fn value(random: &mut Random) -> Vec<u8> {
    match random.below(20) {
        0..=8 => count(random),
        9..=14 => {
            let length = random.below(8);
            bytes(random, length)
        }
        15..=16 => {
            let length = random.from_to(56, 64);
            bytes(random, length)
        }
        17 => Vec::new(),
        _ => {
            let length = random.below(65);
            bytes(random, length)
        }
    }
}

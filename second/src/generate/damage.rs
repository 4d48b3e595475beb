//! Bytes changed in good lines.

use super::random::Random;

/// Numbers about 2^64, where a number can no more be read.
const NUMBERS: [&str; 6] = [
    "18446744073709551615",
    "18446744073709551616",
    "99999999999999999999",
    "100000000000000000000",
    "36893488147419103232",
    "256",
];

/// The line with one damage, never an LF. Some damages leave a line that can be read.
pub fn damage(random: &mut Random, mut line: Vec<u8>) -> Vec<u8> {
    let at = random.below(line.len().max(1) as u64) as usize;
    match random.below(26) {
        0 => put_before(&mut line, is_number_start, at, b"0"),
        1 => put_before(&mut line, is_number_start, at, random.pick(&[b"+", b"-"]).unwrap_or(b"+")),
        2 => change(&mut line, at, |byte| byte.is_ascii_lowercase(), other_case),
        3 => change(&mut line, at, |byte| byte.is_ascii_uppercase(), other_case),
        4 => change(&mut line, at, |byte| byte == b' ', |_| b'\t'),
        5 => change(&mut line, at, |byte| byte == b' ', |_| b'-'),
        6 => put_before(&mut line, |line, at| line[at] == b' ', at, b" "),
        7 => line.push(b' '),
        8 => line.insert(0, b' '),
        9 => line.push(b'\r'),
        10 => line.insert(at, 0),
        11 => change(&mut line, at, |_| true, |_| 0),
        12 => drop(line.pop()),
        13 => line.truncate(at),
        14 => line.clear(),
        15..=16 => {
            let byte = any_byte(random);
            change(&mut line, at, |_| true, |_| byte);
        }
        17 => line.insert(at, any_byte(random)),
        18 => line.extend_from_slice(b" 1"),
        19 => change_number(random, &mut line),
        20 => lengthen(&mut line, 200),
        21 => lengthen(&mut line, 201),
        22 => lengthen(&mut line, random.from_to(202, 6_000) as usize),
        23 => line.extend_from_slice(b"-"),
        24 => line.push(b'a'),
        _ => line = random.pick(&starts()).unwrap_or_default(),
    }
    line
}

/// A letter in the other case.
fn other_case(byte: u8) -> u8 {
    byte ^ (b'a' ^ b'A')
}

/// A lines, readable and not, and lines of nothing much.
pub fn starts() -> Vec<Vec<u8>> {
    let lines: [&[u8]; 14] = [
        b"A 1000 5000",
        b"A 0 5000",
        b"A 1000 0",
        b"A 600001 5000",
        b"A 1000 600001",
        b"A 1000 18446744073709551615",
        b"A 1000 18446744073709551616",
        b"A 01 5000",
        b"A 1000",
        b"A 1000 5000 1",
        b"0 A 1000 5000",
        b"a 1000 5000",
        b"0 T",
        b"",
    ];
    lines.iter().map(|line| line.to_vec()).collect()
}

/// Any byte but LF.
fn any_byte(random: &mut Random) -> u8 {
    match random.any() as u8 {
        b'\n' => b'x',
        byte => byte,
    }
}

/// Whether a number begins at this place.
fn is_number_start(line: &[u8], at: usize) -> bool {
    line[at].is_ascii_digit() && (at == 0 || line[at - 1] == b' ')
}

/// Puts bytes before the first fitting place from `from` on, or from the beginning.
fn put_before(line: &mut Vec<u8>, fits: impl Fn(&[u8], usize) -> bool, from: usize, bytes: &[u8]) {
    let place = (from..line.len()).chain(0..from).find(|at| fits(line, *at));
    if let Some(at) = place {
        line.splice(at..at, bytes.iter().copied());
    }
}

/// Changes the first fitting byte from `from` on, or from the beginning.
fn change(line: &mut [u8], from: usize, fits: impl Fn(u8) -> bool, to: impl Fn(u8) -> u8) {
    let place =
        (from..line.len()).chain(0..from).find(|at| line.get(*at).is_some_and(|b| fits(*b)));
    if let Some(at) = place {
        line[at] = to(line[at]);
    }
}

/// Puts a large number in the place of a field.
fn change_number(random: &mut Random, line: &mut Vec<u8>) {
    let mut fields: Vec<Vec<u8>> = line.split(|byte| *byte == b' ').map(<[u8]>::to_vec).collect();
    let at = random.below(fields.len() as u64) as usize;
    if let Some(number) = random.pick(&NUMBERS) {
        fields[at] = number.as_bytes().to_vec();
    }
    *line = fields.join(&b' ');
}

/// Makes the line this long with digits at its end, which a value of hex takes in.
fn lengthen(line: &mut Vec<u8>, length: usize) {
    if line.last() == Some(&b'-') {
        line.pop();
    }
    while line.len() < length {
        line.push(b'6');
    }
}

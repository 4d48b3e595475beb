//! The document's worked example, and P1 to P12.

mod common;

use common::{rehearsed, Both};
use second::{Answer, Command};

const INPUT: &str = "A 1000 5000
0 G 0 7
5 B
6 Q 1 7 1
8 F 1 7 6131
9 V 1 0
10 C 1 7 6232
11 G 0 7
12 X 1
13 G 0 7
14 F 2 7 6232
15 G 0 7
";

const OUTPUT: &str = "1 READY - 0
2 LEASE 1 0
3 SESSION 1 0
4 GRANTED - 0
5 IGNORED - 0
6 VALIDATED - 0
7 WRITTEN - 0
8 BACKOFF 0 0
9 DONE - 0
10 LEASE 2 0
11 STORED - 0
12 HIT 6232 0
end 12 0
";

#[test]
fn worked_example() {
    assert_eq!(rehearsed(INPUT.as_bytes()), OUTPUT);
    assert_eq!(rehearsed(INPUT.trim_end().as_bytes()), OUTPUT);
}

#[test]
fn p1_full_and_again() {
    let mut both = Both::fresh(1_000, 5_000);
    for number in 1..=128 {
        assert_eq!(both.plain(0, Command::Begin), Answer::Session(number));
    }
    assert_eq!(both.plain(0, Command::Begin), Answer::Refused(11));
    assert_eq!(both.plain(0, Command::Undo { session: 77 }), Answer::Undone);
    assert_eq!(both.plain(0, Command::Begin), Answer::Session(129));
}

#[test]
fn p2_either_side_of_a_deadline() {
    for (now, answer) in [(4_999, Answer::Validated), (5_000, Answer::Refused(5))] {
        let mut both = Both::fresh(1_000, 5_000);
        both.plain(0, Command::Begin);
        assert_eq!(both.plain(now, Command::Validate { session: 1, n: 0 }), answer);
    }
}

#[test]
fn p3_last_key() {
    let mut both = Both::fresh(1_000, 5_000);
    assert_eq!(both.plain(0, Command::Get { session: 0, key: 255 }), Answer::Lease(1));
    assert_eq!(both.plain(0, Command::Get { session: 0, key: 256 }), Answer::Refused(3));
}

#[test]
fn p4_the_clocks_own_time() {
    let mut both = Both::fresh(1_000, 5_000);
    assert_eq!(both.plain(10, Command::Tick), Answer::Ticked);
    assert_eq!(both.plain(10, Command::Tick), Answer::Ticked);
    assert_eq!(both.plain(9, Command::Tick), Answer::Refused(2));
}

/// A session of kind 3 on key 7, where this value is cached.
fn with_cached(value: &[u8]) -> Both {
    let mut both = Both::fresh(1_000, 5_000);
    both.plain(0, Command::Get { session: 0, key: 7 });
    assert_eq!(both.run(0, Command::Fill { token: 1, key: 7 }, value), Answer::Stored);
    both.plain(0, Command::Begin);
    let quar = Command::Quar { session: 1, key: 7, kind: 3 };
    assert_eq!(both.plain(0, quar), Answer::Granted);
    both
}

/// What the first step of the operation answers, and what its session then reads.
fn delta(value: &[u8], operation: u64, operand: &[u8]) -> (Answer, Option<Vec<u8>>) {
    let mut both = with_cached(value);
    let command = Command::Delta { session: 1, step: 0, key: 7, operation };
    let answer = both.run(0, command, operand);
    let read = both.plain(0, Command::Get { session: 1, key: 7 });
    let value = (read != Answer::Ask).then(|| both.hit(read).to_vec());
    (answer, value)
}

#[test]
fn p5_to_p8_counts() {
    let staged = |value: &[u8]| (Answer::Staged, Some(value.to_vec()));
    assert_eq!(delta(b"18446744073709551615", 3, b"1"), staged(b"0"));
    assert_eq!(delta(b"5", 4, b"9"), staged(b"0"));
    assert_eq!(delta(b"007", 3, b"1"), staged(b"8"));
    assert_eq!(delta(b"18446744073709551616", 3, b"1"), (Answer::Dropped, None));
}

#[test]
fn p9_append_to_sixty() {
    let long = [b'x'; 64];
    assert_eq!(delta(&long[..60], 1, &long[..4]), (Answer::Staged, Some(long.to_vec())));
    assert_eq!(delta(&long[..60], 1, &long[..5]), (Answer::Dropped, None));
}

#[test]
fn p10_two_invalidate_a_third_is_aborted() {
    let mut both = Both::fresh(1_000, 5_000);
    for _ in 0..3 {
        both.plain(0, Command::Begin);
    }
    let quar = |session, kind| Command::Quar { session, key: 7, kind };
    assert_eq!(both.plain(0, quar(1, 1)), Answer::Granted);
    assert_eq!(both.plain(0, quar(2, 1)), Answer::Granted);
    assert_eq!(both.plain(0, quar(3, 2)), Answer::Aborted);
    assert_eq!(both.plain(0, Command::Undo { session: 3 }), Answer::Refused(5));
}

#[test]
fn p11_steps() {
    let mut both = with_cached(b"5");
    let step = |step| Command::Delta { session: 1, step, key: 7, operation: 3 };
    assert_eq!(both.run(0, step(0), b"1"), Answer::Staged);
    assert_eq!(both.run(0, step(0), b"1"), Answer::Repeated);
    assert_eq!(both.run(0, step(2), b"1"), Answer::Refused(10));
    assert_eq!(both.plain(0, Command::Validate { session: 1, n: 2 }), Answer::Lost);
}

#[test]
fn p12_the_same_fill_twice() {
    let mut both = Both::fresh(1_000, 5_000);
    both.plain(0, Command::Get { session: 0, key: 7 });
    let fill = Command::Fill { token: 1, key: 7 };
    assert_eq!(both.run(0, fill, b"a"), Answer::Stored);
    assert_eq!(both.run(0, fill, b"a"), Answer::Ignored);
}

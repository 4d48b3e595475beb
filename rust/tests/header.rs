//! The wrapper's numbers are those of the C header.

use basalekko::{version, Kind, Operation, Refusal, STATE_SIZE};

fn number(name: &str) -> u64 {
    let header = include_str!("../../include/basalekko.h");
    let line = header.lines().find(|line| line.split_whitespace().any(|word| word == name)).expect(name);
    let digits = line.rsplit(name).next().unwrap_or_default();
    digits.trim_matches(|letter: char| !letter.is_ascii_digit()).parse().expect(name)
}

#[test]
fn sizes_and_version() {
    assert_eq!(number("BASALEKKO_VERSION"), version());
    assert_eq!(number("BASALEKKO_STATE_SIZE"), STATE_SIZE as u64);
}

#[test]
fn names() {
    for (name, ours) in [
        ("KIND_INVALIDATE", Kind::Invalidate as u64), ("KIND_REFRESH", Kind::Refresh as u64), ("KIND_INCREMENTAL", Kind::Incremental as u64),
        ("OPERATION_APPEND", Operation::Append as u64), ("OPERATION_PREPEND", Operation::Prepend as u64),
        ("OPERATION_INCREMENT", Operation::Increment as u64), ("OPERATION_DECREMENT", Operation::Decrement as u64),
        ("REFUSAL_STATE", Refusal::State as u64), ("REFUSAL_CLOCK", Refusal::Clock as u64), ("REFUSAL_ARG", Refusal::Arg as u64),
        ("REFUSAL_LONG", Refusal::Long as u64), ("REFUSAL_NO_SESSION", Refusal::NoSession as u64), ("REFUSAL_SEALED", Refusal::Sealed as u64),
        ("REFUSAL_NOT_SEALED", Refusal::NotSealed as u64), ("REFUSAL_NO_LEASE", Refusal::NoLease as u64), ("REFUSAL_KIND", Refusal::Kind as u64),
        ("REFUSAL_AHEAD", Refusal::Ahead as u64), ("REFUSAL_FULL", Refusal::Full as u64), ("REFUSAL_ROOM", Refusal::Room as u64),
        ("REFUSAL_NUMBERS", Refusal::Numbers as u64),
    ] {
        assert_eq!(number(&format!("BASALEKKO_{name}")), ours, "{name}");
    }
}

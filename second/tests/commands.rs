//! What each command does, refusals in their order, and the document's traps.

mod common;

use common::Both;
use second::lent::{self, decode, encode};
use second::numbers::{LAST_TIME, NUMBERS_END, STATE_BYTES};
use second::tables::{KeyRecord, Lease, Tables};
use second::value::Value;
use second::{Answer, Command, Machine};

const BEGIN: Command = Command::Begin;

fn get(session: u64, key: u64) -> Command {
    Command::Get { session, key }
}

fn fill(token: u64, key: u64) -> Command {
    Command::Fill { token, key }
}

fn quar(session: u64, key: u64, kind: u64) -> Command {
    Command::Quar { session, key, kind }
}

fn stage(session: u64, step: u64, key: u64) -> Command {
    Command::Stage { session, step, key }
}

fn delta(session: u64, step: u64, key: u64, operation: u64) -> Command {
    Command::Delta { session, step, key, operation }
}

fn validate(session: u64, n: u64) -> Command {
    Command::Validate { session, n }
}

/// So many open sessions at time 0, lifetimes 1,000 and 5,000.
fn sessions(count: u64) -> Both {
    let mut both = Both::fresh(1_000, 5_000);
    for _ in 0..count {
        both.plain(0, BEGIN);
    }
    both
}

#[test]
fn refusals_come_in_order() {
    let long = [0; 65];
    let mut damaged = vec![0; STATE_BYTES];
    assert_eq!(lent::run(&mut damaged, u64::MAX, get(9, 256), &[]), Answer::Refused(1));
    assert_eq!(lent::run(&mut damaged[..10], 0, BEGIN, &[]), Answer::Refused(1));
    let mut both = sessions(2);
    both.plain(10, Command::Tick);
    assert_eq!(both.run(9, stage(9, 1_000, 256), &long), Answer::Refused(2));
    assert_eq!(both.run(LAST_TIME + 1, stage(9, 1_000, 256), &long), Answer::Refused(2));
    assert_eq!(both.run(10, stage(9, 1_000, 256), &long), Answer::Refused(3));
    assert_eq!(both.run(10, stage(9, 0, 7), &long), Answer::Refused(4));
    assert_eq!(both.run(10, stage(9, 0, 7), b""), Answer::Refused(5));
    both.plain(10, quar(1, 7, 3));
    both.plain(10, validate(2, 0));
    assert_eq!(both.run(10, stage(2, 5, 8), b""), Answer::Refused(6));
    assert_eq!(both.run(10, stage(1, 5, 8), b""), Answer::Refused(8));
    assert_eq!(both.run(10, stage(1, 5, 7), b""), Answer::Refused(9));
    assert_eq!(both.run(10, delta(1, 5, 7, 1), b""), Answer::Refused(10));
}

#[test]
fn arguments_out_of_range() {
    let mut both = sessions(1);
    for command in [
        get(0, 256),
        fill(1, 256),
        quar(1, 256, 1),
        quar(1, 7, 0),
        quar(1, 7, 4),
        stage(1, 0, 256),
        stage(1, 1_000, 7),
        delta(1, 0, 256, 1),
        delta(1, 1_000, 7, 1),
        delta(1, 0, 7, 0),
        delta(1, 0, 7, 5),
        validate(1, 1_001),
        Command::Evict { key: u64::MAX },
    ] {
        assert_eq!(both.run(0, command, &[0; 65]), Answer::Refused(3), "{command:?}");
    }
    for command in [fill(1, 7), stage(1, 0, 7), delta(1, 0, 7, 1)] {
        assert_eq!(both.run(0, command, &[0; 65]), Answer::Refused(4), "{command:?}");
    }
    assert_eq!(both.run(0, Command::Tick, &[0; 65]), Answer::Ticked);
}

#[test]
fn start_looks_at_length_and_lifetimes() {
    let mut state = vec![7; STATE_BYTES];
    assert_eq!(lent::start(&mut state[1..], 0, 1), Answer::Refused(1));
    for (read, write) in [(0, 1), (1, 0), (600_001, 1), (1, 600_001), (u64::MAX, 1), (1 << 32, 1)] {
        assert_eq!(lent::start(&mut state, read, write), Answer::Refused(3));
        assert_eq!(Machine::fresh(1, 1).start(read, write), Answer::Refused(3));
        assert!(state.iter().all(|byte| *byte == 7));
    }
    assert_eq!(lent::start(&mut state, 600_000, 1), Answer::Ready);
    assert!(state == encode(&Machine::fresh(600_000, 1).tables()));
}

#[test]
fn a_session_is_never_found_by_part_of_its_number() {
    let mut both = sessions(3);
    for session in [0, 4, 129, (1 << 32) + 1, 1 << 32, u64::MAX] {
        assert_eq!(both.plain(0, quar(session, 7, 1)), Answer::Refused(5));
        assert_eq!(both.plain(0, Command::Undo { session }), Answer::Refused(5));
        assert_eq!(both.plain(0, Command::Done { session }), Answer::Refused(5));
        assert_eq!(both.plain(0, validate(session, 0)), Answer::Refused(5));
        if session != 0 {
            assert_eq!(both.plain(0, get(session, 7)), Answer::Refused(5));
        }
    }
}

#[test]
fn fill_needs_the_leases_own_token() {
    let mut both = sessions(0);
    assert_eq!(both.run(0, fill(0, 7), b"a"), Answer::Ignored);
    assert_eq!(both.plain(0, get(0, 7)), Answer::Lease(1));
    assert_eq!(both.plain(400, get(0, 7)), Answer::Backoff(600));
    for token in [0, 2, (1 << 32) + 1] {
        assert_eq!(both.run(400, fill(token, 7), b"a"), Answer::Ignored);
    }
    assert_eq!(both.run(400, fill(1, 8), b"a"), Answer::Ignored);
    assert_eq!(both.run(999, fill(1, 7), b""), Answer::Stored);
    let hit = both.plain(999, get(0, 7));
    assert_eq!(both.hit(hit), b"");
    assert_eq!(both.plain(999, get(0, 8)), Answer::Lease(2));
    assert_eq!(both.run(1_999, fill(2, 8), b"a"), Answer::Ignored);
}

#[test]
fn the_wait_is_the_latest_blocking_deadline() {
    let mut both = Both::fresh(1_000, 5_000);
    both.plain(0, BEGIN);
    both.plain(300, BEGIN);
    both.plain(300, quar(2, 7, 1));
    both.plain(300, quar(1, 7, 1));
    assert_eq!(both.plain(500, get(0, 7)), Answer::Backoff(4_800));
    assert_eq!(both.plain(500, get(1, 7)), Answer::Ask);
    assert_eq!(both.plain(500, validate(1, 0)), Answer::Validated);
    assert_eq!(both.plain(500, get(0, 7)), Answer::Backoff(0));
    assert_eq!(both.plain(600, Command::Undo { session: 1 }), Answer::Undone);
    assert_eq!(both.plain(5_299, get(0, 7)), Answer::Backoff(1));
    assert_eq!(both.plain(5_300, get(0, 7)), Answer::Lease(1));
}

#[test]
fn a_quarantine_voids_a_lease_and_a_refused_one_does_not() {
    let mut both = sessions(1);
    assert_eq!(both.plain(0, get(0, 7)), Answer::Lease(1));
    both.plain(0, BEGIN);
    both.plain(0, validate(2, 0));
    assert_eq!(both.plain(0, quar(2, 7, 1)), Answer::Refused(6));
    assert_eq!(both.plain(0, quar(1, 7, 2)), Answer::Granted);
    assert_eq!(both.run(0, fill(1, 7), b"a"), Answer::Ignored);
    assert_eq!(both.plain(0, quar(1, 7, 2)), Answer::Held);
    assert_eq!(both.plain(0, validate(1, 0)), Answer::Validated);
    assert_eq!(both.plain(0, quar(1, 7, 2)), Answer::Refused(6));
}

#[test]
fn its_own_row_of_another_kind_aborts_the_asker() {
    for held in 1..=3 {
        for asked in 1..=3 {
            let mut both = sessions(1);
            both.plain(0, quar(1, 7, held));
            let answer = if held == asked { Answer::Held } else { Answer::Aborted };
            assert_eq!(both.plain(0, quar(1, 7, asked)), answer);
        }
    }
}

#[test]
fn expiry_drops_the_values_of_a_sessions_keys() {
    let mut both = Both::fresh(1_000, 5_000);
    both.plain(0, get(0, 7));
    both.run(0, fill(1, 7), b"a");
    both.plain(0, BEGIN);
    both.plain(0, quar(1, 7, 3));
    assert_eq!(both.run(4_999, delta(1, 0, 7, 1), b"b"), Answer::Staged);
    let cached = both.plain(4_999, get(0, 7));
    assert_eq!(both.hit(cached), b"a");
    assert_eq!(both.plain(5_000, get(0, 7)), Answer::Lease(2));
}

#[test]
fn one_of_two_invalidating_sessions_ends_and_the_key_stays_held() {
    let mut both = sessions(2);
    both.plain(0, quar(1, 7, 1));
    both.plain(0, quar(2, 7, 1));
    both.plain(0, validate(1, 0));
    assert_eq!(both.plain(0, Command::Done { session: 1 }), Answer::Done);
    assert_eq!(both.plain(0, get(0, 7)), Answer::Backoff(5_000));
}

#[test]
fn a_sealed_session_does_not_expire() {
    let mut both = sessions(1);
    both.plain(0, quar(1, 7, 1));
    both.plain(0, validate(1, 0));
    assert_eq!(both.plain(LAST_TIME, get(0, 7)), Answer::Backoff(0));
    assert_eq!(both.plain(LAST_TIME, validate(1, 0)), Answer::Validated);
    assert_eq!(both.plain(LAST_TIME, validate(1, 1)), Answer::Refused(6));
    assert_eq!(both.plain(LAST_TIME, Command::Done { session: 1 }), Answer::Done);
}

#[test]
fn done_caches_what_is_staged_and_deletes_the_rest() {
    let mut both = Both::fresh(1_000, 5_000);
    for key in 0..4 {
        both.plain(0, get(0, key));
        both.run(0, fill(key + 1, key), b"old");
    }
    both.plain(0, BEGIN);
    both.plain(0, quar(1, 0, 1));
    both.plain(0, quar(1, 1, 2));
    both.plain(0, quar(1, 2, 3));
    both.plain(0, quar(1, 3, 3));
    assert_eq!(both.plain(0, Command::Done { session: 1 }), Answer::Refused(7));
    assert_eq!(both.run(0, stage(1, 0, 1), b"new"), Answer::Staged);
    assert_eq!(both.run(0, stage(1, 1, 1), b""), Answer::Staged);
    assert_eq!(both.run(0, delta(1, 2, 3, 3), b"1"), Answer::Dropped);
    assert_eq!(both.run(0, delta(1, 3, 3, 1), b"1"), Answer::Dropped);
    assert_eq!(both.plain(0, get(1, 3)), Answer::Ask);
    let cached = both.plain(0, get(1, 2));
    assert_eq!(both.hit(cached), b"old");
    assert_eq!(both.show(1, 1), Answer::Value(0));
    assert_eq!(both.show(0, 1), Answer::Value(3));
    assert_eq!(both.show(1, 0), Answer::None);
    assert_eq!(both.plain(0, validate(1, 4)), Answer::Validated);
    assert_eq!(both.plain(0, Command::Done { session: 1 }), Answer::Done);
    for key in [0, 2, 3] {
        assert_eq!(both.show(0, key), Answer::None);
    }
    assert_eq!(both.show(0, 1), Answer::Value(0));
}

#[test]
fn show_gives_state_arg_no_session() {
    let both = sessions(1);
    assert_eq!(both.show(1, 255), Answer::None);
    assert_eq!(both.show(9, 256), Answer::Refused(3));
    assert_eq!(both.show(9, 255), Answer::Refused(5));
    let zeros = vec![0; STATE_BYTES];
    assert_eq!(lent::show(&zeros, 9, 256), Answer::Refused(1));
    assert_eq!(lent::show(&[], 0, 0), Answer::Refused(1));
    assert!(lent::stretch(&[], 0, 0).is_empty());
    assert!(std::ptr::eq(lent::stretch(&zeros, 0, 0), &zeros[..0]));
}

#[test]
fn show_looks_at_no_deadline() {
    let mut both = sessions(1);
    both.plain(0, quar(1, 7, 2));
    both.run(0, stage(1, 0, 7), b"ab");
    let mut tables = both.machine.tables();
    tables.clock = 9_000;
    let both = Both::of(&tables);
    assert_eq!(both.show(1, 7), Answer::Value(2));
}

#[test]
fn evict_leaves_rows_and_leases() {
    let mut both = sessions(1);
    assert_eq!(both.plain(0, get(0, 7)), Answer::Lease(1));
    assert_eq!(both.plain(0, Command::Evict { key: 7 }), Answer::Empty);
    assert_eq!(both.run(0, fill(1, 7), b"a"), Answer::Stored);
    both.plain(0, quar(1, 7, 2));
    assert_eq!(both.plain(0, Command::Evict { key: 7 }), Answer::Evicted);
    assert_eq!(both.plain(0, Command::Evict { key: 7 }), Answer::Empty);
    assert_eq!(both.plain(0, get(1, 7)), Answer::Ask);
    assert_eq!(both.plain(0, get(0, 7)), Answer::Backoff(5_000));
}

/// Each of the first sessions takes a row on each of the first keys.
fn take_rows(both: &mut Both, sessions: u64, keys: u64) {
    for session in 1..=sessions {
        for key in 0..keys {
            assert_eq!(both.plain(0, quar(session, key, 1)), Answer::Granted);
        }
    }
}

#[test]
fn room_only_where_a_row_would_be_taken() {
    let mut both = sessions(128);
    take_rows(&mut both, 128, 3);
    assert_eq!(both.plain(0, quar(5, 9, 1)), Answer::Refused(12));
    assert_eq!(both.plain(0, quar(5, 2, 1)), Answer::Held);
    assert_eq!(both.plain(0, quar(5, 2, 3)), Answer::Aborted);
    assert_eq!(both.plain(0, quar(6, 9, 1)), Answer::Granted);
    assert_eq!(both.plain(1, BEGIN), Answer::Session(129));
    assert_eq!(both.plain(5_000, quar(129, 9, 1)), Answer::Granted);
    assert_eq!(both.plain(5_001, quar(129, 9, 1)), Answer::Refused(5));
}

#[test]
fn full_and_room_are_asked_after_expiry() {
    let mut both = sessions(127);
    take_rows(&mut both, 96, 4);
    assert_eq!(both.plain(1, BEGIN), Answer::Session(128));
    assert_eq!(both.plain(4_999, quar(128, 9, 1)), Answer::Refused(12));
    assert_eq!(both.plain(4_999, BEGIN), Answer::Refused(11));
    let (machine, lent) = (both.machine.clone(), both.lent.clone());
    assert_eq!(both.plain(5_000, quar(128, 9, 1)), Answer::Granted);
    let mut both = Both { machine, lent };
    assert_eq!(both.plain(5_000, BEGIN), Answer::Session(129));
}

/// A well-formed state with one open session and no number left to give.
fn numbers_at_end() -> Tables {
    let mut tables = sessions(1).machine.tables();
    tables.next_session = NUMBERS_END;
    tables.next_token = NUMBERS_END;
    tables
}

#[test]
fn numbers_only_where_one_would_be_given() {
    let mut tables = numbers_at_end();
    let mut both = Both::of(&tables);
    assert_eq!(both.plain(0, BEGIN), Answer::Refused(13));
    assert_eq!(both.plain(0, get(0, 7)), Answer::Refused(13));
    assert_eq!(both.plain(0, get(1, 7)), Answer::Refused(13));
    assert_eq!(both.plain(0, quar(1, 7, 1)), Answer::Granted);
    assert_eq!(both.plain(0, get(0, 7)), Answer::Backoff(5_000));
    assert_eq!(both.plain(5_000, get(0, 7)), Answer::Refused(13));
    tables.next_session -= 1;
    tables.next_token -= 1;
    let mut both = Both::of(&tables);
    assert_eq!(both.plain(0, BEGIN), Answer::Session(NUMBERS_END - 1));
    assert_eq!(both.plain(0, BEGIN), Answer::Refused(13));
    assert_eq!(both.plain(0, get(0, 7)), Answer::Lease(NUMBERS_END - 1));
    assert_eq!(both.plain(0, get(0, 8)), Answer::Refused(13));
}

#[test]
fn full_comes_before_numbers() {
    let mut tables = sessions(128).machine.tables();
    tables.next_session = NUMBERS_END;
    let mut both = Both::of(&tables);
    assert_eq!(both.plain(4_999, BEGIN), Answer::Refused(11));
    assert_eq!(both.plain(5_000, BEGIN), Answer::Refused(13));
}

#[test]
fn numbers_look_at_the_value_after_expiry() {
    let mut both = sessions(1);
    both.plain(0, get(0, 7));
    both.run(0, fill(1, 7), b"a");
    both.plain(0, quar(1, 7, 2));
    let mut tables = both.machine.tables();
    tables.next_token = NUMBERS_END;
    let mut both = Both::of(&tables);
    assert!(matches!(both.plain(4_999, get(0, 7)), Answer::Hit { .. }));
    assert_eq!(both.plain(5_000, get(0, 7)), Answer::Refused(13));
}

#[test]
fn a_lease_and_a_value_may_stand_on_one_key() {
    let mut tables = sessions(0).machine.tables();
    tables.clock = 50;
    tables.next_token = 9;
    tables.keys[7] =
        KeyRecord { value: Value::of(b"old"), lease: Some(Lease { token: 8, deadline: 1_050 }) };
    let mut both = Both::of(&tables);
    let hit = both.plain(50, get(0, 7));
    assert_eq!(both.hit(hit), b"old");
    assert_eq!(both.plain(50, Command::Evict { key: 7 }), Answer::Evicted);
    assert_eq!(both.plain(50, get(0, 7)), Answer::Backoff(1_000));
    assert_eq!(both.run(50, fill(8, 7), b"new"), Answer::Stored);
}

#[test]
fn a_thousand_steps() {
    let mut both = sessions(1);
    both.plain(0, quar(1, 7, 2));
    for step in 0..1_000 {
        assert_eq!(both.run(0, stage(1, step, 7), b"x"), Answer::Staged);
    }
    assert_eq!(both.run(0, stage(1, 999, 7), b"y"), Answer::Repeated);
    assert_eq!(both.run(0, stage(1, 1_000, 7), b"y"), Answer::Refused(3));
    assert_eq!(both.plain(0, validate(1, 1_000)), Answer::Validated);
}

#[test]
fn decoding_gives_back_what_was_encoded() {
    let tables = numbers_at_end();
    let bytes = encode(&tables);
    assert_eq!(decode(bytes[..].try_into().unwrap()), tables);
}

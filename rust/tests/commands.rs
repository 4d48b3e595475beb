//! Each answer and each refusal once through the wrapper.

use basalekko::{well_formed, Answer, Cache, Command, Kind, Operation, Refusal, STATE_SIZE};

const NEXT_SESSION: usize = 16;

fn buffer() -> Box<[u8; STATE_SIZE]> {
    Box::new([0xa5; STATE_SIZE])
}

fn fresh(state: &mut [u8; STATE_SIZE]) -> Cache<'_> {
    Cache::start(state, 1_000, 5_000).expect("the lifetimes are in range")
}

fn begun(cache: &mut Cache) -> u64 {
    match cache.run(0, Command::Begin) {
        Ok(Answer::Session(session)) => session,
        other => panic!("BEGIN answered {other:?}"),
    }
}

fn filled(cache: &mut Cache, key: u64, value: &[u8]) {
    let Ok(Answer::Lease(token)) = cache.run(0, Command::Get { session: 0, key }) else { panic!("no lease") };
    assert_eq!(cache.run(0, Command::Fill { token, key, value }), Ok(Answer::Stored));
}

#[test]
fn start_and_open() {
    let mut state = buffer();
    assert!(!well_formed(&state[..]));
    assert!(Cache::open(&mut state).is_none());
    assert_eq!(Cache::start(&mut state, 0, 5_000).err(), Some(Refusal::Arg));
    assert_eq!(Cache::start(&mut state, 1_000, 600_001).err(), Some(Refusal::Arg));
    assert_eq!(state[..], [0xa5; STATE_SIZE]);
    fresh(&mut state);
    assert!(well_formed(&state[..]));
    assert!(!well_formed(&state[1..]));
    assert!(!well_formed(&[]));
    assert!(Cache::open(&mut state).is_some());
}

#[test]
fn a_value_is_filled_read_and_evicted() {
    let mut state = buffer();
    let mut cache = fresh(&mut state);
    assert_eq!(cache.show(0, 7), Ok(None));
    filled(&mut cache, 7, b"floor 3");
    assert_eq!(cache.run(0, Command::Get { session: 0, key: 7 }), Ok(Answer::Hit(b"floor 3")));
    assert_eq!(cache.show(0, 7), Ok(Some(&b"floor 3"[..])));
    assert_eq!(cache.run(0, Command::Fill { token: 1, key: 7, value: b"" }), Ok(Answer::Ignored));
    assert_eq!(cache.run(0, Command::Evict { key: 7 }), Ok(Answer::Evicted));
    assert_eq!(cache.run(0, Command::Evict { key: 7 }), Ok(Answer::Empty));
    filled(&mut cache, 7, b"");
    assert_eq!(cache.show(0, 7), Ok(Some(&b""[..])));
    assert_eq!(cache.run(0, Command::Get { session: 0, key: 8 }), Ok(Answer::Lease(3)));
    assert_eq!(cache.run(1, Command::Get { session: 0, key: 8 }), Ok(Answer::Backoff(999)));
    assert_eq!(cache.run(1, Command::Tick), Ok(Answer::Ticked));
}

#[test]
fn a_session_refreshes_and_counts() {
    let mut state = buffer();
    let mut cache = fresh(&mut state);
    filled(&mut cache, 2, b"18446744073709551615");
    let session = begun(&mut cache);
    for (key, kind) in [(1, Kind::Refresh), (2, Kind::Incremental)] {
        assert_eq!(cache.run(0, Command::Quar { session, key, kind }), Ok(Answer::Granted));
        assert_eq!(cache.run(0, Command::Quar { session, key, kind }), Ok(Answer::Held));
    }
    assert_eq!(cache.run(0, Command::Get { session, key: 1 }), Ok(Answer::Ask));
    assert_eq!(cache.run(0, Command::Stage { session, step: 0, key: 1, value: b"x" }), Ok(Answer::Staged));
    assert_eq!(cache.run(0, Command::Stage { session, step: 0, key: 1, value: b"y" }), Ok(Answer::Repeated));
    let delta = |step, operation, operand| Command::Delta { session, step, key: 2, operation, operand };
    assert_eq!(cache.run(0, delta(1, Operation::Increment, b"1")), Ok(Answer::Staged));
    assert_eq!(cache.run(0, Command::Get { session, key: 2 }), Ok(Answer::Hit(b"0")));
    assert_eq!(cache.run(0, delta(2, Operation::Append, b"5")), Ok(Answer::Staged));
    assert_eq!(cache.run(0, delta(3, Operation::Decrement, b"9")), Ok(Answer::Staged));
    assert_eq!(cache.run(0, delta(4, Operation::Prepend, b"floor ")), Ok(Answer::Staged));
    assert_eq!(cache.show(session, 2), Ok(Some(&b"floor 0"[..])));
    assert_eq!(cache.run(0, delta(5, Operation::Increment, b"1")), Ok(Answer::Dropped));
    assert_eq!(cache.run(0, Command::Validate { session, n: 6 }), Ok(Answer::Validated));
    assert_eq!(cache.run(0, Command::Done { session }), Ok(Answer::Done));
    assert_eq!(cache.show(0, 1), Ok(Some(&b"x"[..])));
    assert_eq!(cache.show(0, 2), Ok(None));
}

#[test]
fn sessions_end() {
    let mut state = buffer();
    let mut cache = fresh(&mut state);
    let (one, other) = (begun(&mut cache), begun(&mut cache));
    assert_eq!(cache.run(0, Command::Quar { session: one, key: 1, kind: Kind::Invalidate }), Ok(Answer::Granted));
    assert_eq!(cache.run(0, Command::Quar { session: other, key: 1, kind: Kind::Refresh }), Ok(Answer::Aborted));
    assert_eq!(cache.run(0, Command::Undo { session: one }), Ok(Answer::Undone));
    let session = begun(&mut cache);
    assert_eq!(cache.run(0, Command::Validate { session, n: 1 }), Ok(Answer::Lost));
}

#[test]
fn refusals() {
    let mut state = buffer();
    let mut cache = fresh(&mut state);
    assert_eq!(cache.run(5, Command::Tick), Ok(Answer::Ticked));
    assert_eq!(cache.run(4, Command::Tick), Err(Refusal::Clock));
    assert_eq!(cache.run(1 << 48, Command::Tick), Err(Refusal::Clock));
    assert_eq!(cache.run(5, Command::Get { session: 0, key: 256 }), Err(Refusal::Arg));
    assert_eq!(cache.show(0, 256), Err(Refusal::Arg));
    assert_eq!(cache.run(5, Command::Fill { token: 1, key: 1, value: &[0; 65] }), Err(Refusal::Long));
    assert_eq!(cache.run(5, Command::Done { session: 1 }), Err(Refusal::NoSession));
    assert_eq!(cache.show(1, 1), Err(Refusal::NoSession));
    let Ok(Answer::Session(session)) = cache.run(5, Command::Begin) else { panic!("no session") };
    let stage = |step, key| Command::Stage { session, step, key, value: b"" };
    assert_eq!(cache.run(5, Command::Done { session }), Err(Refusal::NotSealed));
    assert_eq!(cache.run(5, stage(0, 1)), Err(Refusal::NoLease));
    assert_eq!(cache.run(5, Command::Quar { session, key: 1, kind: Kind::Invalidate }), Ok(Answer::Granted));
    assert_eq!(cache.run(5, stage(0, 1)), Err(Refusal::Kind));
    assert_eq!(cache.run(5, Command::Quar { session, key: 2, kind: Kind::Refresh }), Ok(Answer::Granted));
    assert_eq!(cache.run(5, stage(1, 2)), Err(Refusal::Ahead));
    assert_eq!(cache.run(5, Command::Validate { session, n: 0 }), Ok(Answer::Validated));
    assert_eq!(cache.run(5, stage(0, 2)), Err(Refusal::Sealed));
}

#[test]
fn refusals_of_a_full_state() {
    let mut state = buffer();
    let mut cache = fresh(&mut state);
    for _ in 0..128 {
        let session = begun(&mut cache);
        for key in 0..3 {
            assert_eq!(cache.run(0, Command::Quar { session, key, kind: Kind::Invalidate }), Ok(Answer::Granted));
        }
    }
    let before = *cache.bytes();
    assert_eq!(cache.run(0, Command::Begin), Err(Refusal::Full));
    assert_eq!(cache.run(0, Command::Quar { session: 1, key: 3, kind: Kind::Invalidate }), Err(Refusal::Room));
    assert_eq!(*cache.bytes(), before);
}

#[test]
fn refusals_by_the_state() {
    let mut state = buffer();
    fresh(&mut state);
    state[NEXT_SESSION..NEXT_SESSION + 4].copy_from_slice(&u32::MAX.to_le_bytes());
    let mut cache = Cache::open(&mut state).expect("well formed");
    assert_eq!(cache.run(0, Command::Begin), Err(Refusal::Numbers));
}

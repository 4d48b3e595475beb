//! Counts about 2^64 and values about 64 bytes, in scenes: the register gets a value, it is filled,
//! and a session of kind 3 takes steps on it.

use super::said::Said;
use super::values;
use super::world::World;
use crate::numbers::{INCREMENTAL, INVALIDATE, MOST_STEPS};

/// The lines of a scene.
pub fn scene(world: &mut World) -> Vec<Said> {
    let key = world.random.below(4);
    let steps = world.random.from_to(1, 12);
    let value = value(world);
    let (session, mut said) = prologue(world, key, &value);
    for step in 0..steps {
        let (operation, operand) = delta(world);
        said.push(Said::with(b'D', &[session, step, key, operation], &operand));
        said.push(Said::plain(b'G', &[session, key]));
    }
    said.push(Said::plain(b'V', &[session, steps]));
    said
}

/// A session that takes all the steps that a session can.
pub fn long_scene(world: &mut World) -> Vec<Said> {
    let key = world.random.below(4);
    let (session, mut said) = prologue(world, key, b"18446744073709551000");
    for step in 0..MOST_STEPS {
        let operation = world.random.pick(&[3, 3, 3, 4]).unwrap_or(3);
        said.push(Said::with(b'D', &[session, step, key, operation], b"1"));
    }
    said.push(Said::with(b'D', &[session, MOST_STEPS - 1, key, 3], b"1"));
    said.push(Said::with(b'D', &[session, MOST_STEPS, key, 3], b"1"));
    said.push(Said::plain(b'G', &[session, key]));
    said.push(Said::plain(b'V', &[session, MOST_STEPS + 1]));
    said.push(Said::plain(b'V', &[session, MOST_STEPS]));
    said
}

/// The register writes the value, it is filled, and a session takes the key for increments: that
/// session's number, and the lines.
fn prologue(world: &World, key: u64, value: &[u8]) -> (u64, Vec<Said>) {
    let writer = world.machine().next_session();
    let session = writer + 1;
    let token = world.machine().next_token();
    let said = vec![
        Said::plain(b'B', &[]),
        Said::plain(b'Q', &[writer, key, INVALIDATE]),
        Said::plain(b'V', &[writer, 0]),
        Said::with(b'C', &[writer, key], value),
        Said::plain(b'X', &[writer]),
        Said::plain(b'G', &[0, key]),
        Said::with(b'F', &[token, key], value),
        Said::plain(b'B', &[]),
        Said::plain(b'Q', &[session, key, INCREMENTAL]),
    ];
    (session, said)
}

fn value(world: &mut World) -> Vec<u8> {
    match world.random.below(6) {
        0..=3 => values::edge(&mut world.random),
        4 => near_end(world),
        _ => {
            let length = world.random.from_to(56, 64);
            values::bytes(&mut world.random, length)
        }
    }
}

/// A count just below 2^64.
fn near_end(world: &mut World) -> Vec<u8> {
    (u64::MAX - world.random.below(20)).to_string().into_bytes()
}

/// An operation and its operand; most leave something to go on with.
fn delta(world: &mut World) -> (u64, Vec<u8>) {
    let operation = world.random.pick(&[1, 2, 3, 3, 3, 4, 4, 4]).unwrap_or(3);
    let operand = match (operation, world.random.below(6)) {
        (1 | 2, 0..=3) => {
            let length = world.random.below(6);
            vec![b'7'; length as usize]
        }
        (_, 0..=1) => values::edge(&mut world.random),
        (_, 2) => near_end(world),
        _ => world.random.below(30).to_string().into_bytes(),
    };
    (operation, operand)
}

//! States with one damage each: where a check stops is where its order of tests shows.

use second::lent::layout::{
    HEADER_USED, KEYS_AT, KEY_BYTES, KEY_VALUE, NUMBER, REST_AT, ROWS_AT, ROW_BYTES, ROW_SESSION, ROW_VALUE, SESSIONS_AT, SESSION_BYTES, TOKEN,
};
use second::numbers::{KEYS, ROWS, SESSIONS, STATE_BYTES, VALUE_BYTES};

/// A table: where it begins, how many records it has and of how many bytes, and where in a record stand its number (a token, a session's, or that
/// of a row's session) and its value.
struct Table {
    name: &'static str,
    from: usize,
    count: usize,
    width: usize,
    number: usize,
    value: usize,
}

const TABLES: [Table; 3] = [
    Table { name: "session", from: SESSIONS_AT, count: SESSIONS, width: SESSION_BYTES, number: NUMBER, value: SESSION_BYTES },
    Table { name: "key", from: KEYS_AT, count: KEYS, width: KEY_BYTES, number: TOKEN, value: KEY_VALUE },
    Table { name: "row", from: ROWS_AT, count: ROWS, width: ROW_BYTES, number: ROW_SESSION, value: ROW_VALUE },
];

impl Table {
    /// The records that are damaged: the first ones, some between, and the last.
    fn places(&self) -> impl Iterator<Item = usize> + '_ {
        [0, 1, 2, 5, 10, 20, 50, 100, 127, 128, 200, 255, 300, 383].into_iter().filter(|place| *place < self.count)
    }

    /// The bytes of a record that are damaged: its fields, and the first, a middle and the last byte of its value.
    fn bytes(&self) -> impl Iterator<Item = usize> {
        let inside = [0, VALUE_BYTES / 2, VALUE_BYTES - 1].map(|at| self.value + at);
        let width = self.width;
        (0..self.value).chain(inside).filter(move |at| *at < width)
    }
}

/// What a byte is changed to.
const CHANGES: [fn(u8) -> u8; 3] = [|byte| byte ^ 1, |byte| byte ^ 128, |byte| if byte == 0 { 3 } else { 0 }];

/// A state's buffer with one change.
fn changed(state: &[u8], change: impl FnOnce(&mut [u8])) -> Vec<u8> {
    let mut state = state.to_vec();
    change(&mut state);
    state
}

/// Each damage of a state, with its name: a byte changed, a number or a whole record copied from one before it.
pub fn each(state: &[u8], mut give: impl FnMut(String, &[u8])) {
    let header = (0..HEADER_USED).chain([HEADER_USED, KEYS_AT - 1]);
    let rest = [REST_AT, REST_AT + 1, REST_AT + (STATE_BYTES - REST_AT) / 2, STATE_BYTES - 1];
    for at in header.chain(rest) {
        for change in CHANGES {
            give(format!("byte {at}"), &changed(state, |state| state[at] = change(state[at])));
        }
    }
    for table in &TABLES {
        for place in table.places() {
            let name = format!("{} {place}", table.name);
            let at = table.from + place * table.width;
            for byte in table.bytes() {
                for change in CHANGES {
                    give(format!("{name} byte {byte}"), &changed(state, |state| state[at + byte] = change(state[at + byte])));
                }
            }
            for other in table.places().filter(|other| *other < place) {
                let from = table.from + other * table.width;
                for (what, bytes) in [("the number", table.number..table.number + 4), ("all", 0..table.width)] {
                    give(
                        format!("{name} with {what} of {other}"),
                        &changed(state, |state| state.copy_within(from + bytes.start..from + bytes.end, at + bytes.start)),
                    );
                }
            }
        }
    }
}

/// Buffers that are no state by their length.
pub fn lengths(mut give: impl FnMut(String, &[u8])) {
    for length in [0, 1, STATE_BYTES - 1, STATE_BYTES + 1] {
        give(format!("{length} bytes"), &vec![0; length]);
    }
}

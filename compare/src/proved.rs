//! The proved functions, as C sees them.

use second::Command;

mod exported {
    extern "C" {
        pub fn basalekko_well_formed(state: *const u8, length: usize) -> bool;
        pub fn basalekko_start(state: *mut u8, length: usize, read: u64, write: u64, told: *mut u64) -> u64;
        pub fn basalekko_show(state: *const u8, length: usize, session: u64, key: u64, told: *mut u64) -> u64;
        pub fn basalekko_stretch(state: *const u8, length: usize, session: u64, key: u64, told: *mut u64);
        #[allow(clippy::too_many_arguments)]
        pub fn basalekko_run(
            state: *mut u8,
            length: usize,
            time: u64,
            number: u64,
            a: u64,
            b: u64,
            c: u64,
            d: u64,
            value: *const u8,
            value_length: usize,
            told: *mut u64,
        ) -> u64;
    }
}

/// The words by number.
const WORDS: [&str; 24] = [
    "REFUSED", "READY", "SESSION", "HIT", "ASK", "BACKOFF", "LEASE", "STORED", "IGNORED", "HELD", "GRANTED", "ABORTED", "STAGED",
    "REPEATED", "DROPPED", "VALIDATED", "LOST", "DONE", "UNDONE", "EVICTED", "EMPTY", "TICKED", "VALUE", "NONE",
];

/// Whether the buffer holds a well-formed state, as the proved check says.
pub fn well_formed(state: &[u8]) -> bool {
    // The function reads `length` bytes from `state`, which the slice has, and keeps nothing.
    unsafe { exported::basalekko_well_formed(state.as_ptr(), state.len()) }
}

/// An answer: its word, what goes with it, and where a HIT's value stands.
pub type Told = (&'static str, u64, u64);

/// The answer of a word's number and what was told beside it.
fn said(word: u64, told: [u64; 2]) -> Told {
    (WORDS[word as usize], told[0], told[1])
}

/// Numbers that no function leaves in `told`.
const UNTOLD: [u64; 2] = [u64::MAX; 2];

/// START on the buffer.
pub fn start(state: &mut [u8], read: u64, write: u64) -> Told {
    let mut told = UNTOLD;
    // The function reads and writes the slice within its length and two numbers in `told`, and keeps nothing.
    let word = unsafe { exported::basalekko_start(state.as_mut_ptr(), state.len(), read, write, told.as_mut_ptr()) };
    said(word, told)
}

/// SHOW's call that answers.
pub fn show(state: &[u8], session: u64, key: u64) -> Told {
    let mut told = UNTOLD;
    // The function reads the slice within its length, writes two numbers in `told`, and keeps nothing.
    let word = unsafe { exported::basalekko_show(state.as_ptr(), state.len(), session, key, told.as_mut_ptr()) };
    said(word, told)
}

/// SHOW's call that gives the stretch alone: its place and its length.
pub fn stretch(state: &[u8], session: u64, key: u64) -> (u64, u64) {
    let mut told = UNTOLD;
    // The function reads the slice within its length, writes two numbers in `told`, and keeps nothing.
    unsafe { exported::basalekko_stretch(state.as_ptr(), state.len(), session, key, told.as_mut_ptr()) };
    (told[1], told[0])
}

/// One command on the buffer.
pub fn run(state: &mut [u8], time: u64, number: u64, numbers: [u64; 4], value: &[u8]) -> Told {
    let [a, b, c, d] = numbers;
    let mut told = UNTOLD;
    // The function reads and writes the slices within their lengths and two numbers in `told`, and keeps nothing.
    let word = unsafe {
        exported::basalekko_run(
            state.as_mut_ptr(), state.len(), time, number, a, b, c, d, value.as_ptr(), value.len(), told.as_mut_ptr(),
        )
    };
    said(word, told)
}

/// A command's own numbers in their order, and 0 behind them.
pub fn numbers(command: Command) -> [u64; 4] {
    match command {
        Command::Begin | Command::Tick => [0; 4],
        Command::Get { session, key } => [session, key, 0, 0],
        Command::Fill { token, key } => [token, key, 0, 0],
        Command::Quar { session, key, kind } => [session, key, kind, 0],
        Command::Stage { session, step, key } => [session, step, key, 0],
        Command::Delta { session, step, key, operation } => [session, step, key, operation],
        Command::Validate { session, n } => [session, n, 0, 0],
        Command::Done { session } | Command::Undo { session } => [session, 0, 0, 0],
        Command::Evict { key } => [key, 0, 0, 0],
    }
}

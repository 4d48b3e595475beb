//! The functions of include/basalekko.h, and the safe calls of them. All `unsafe` of the crate stands here.

mod exported {
    extern "C" {
        pub fn basalekko_version() -> u64;
        pub fn basalekko_well_formed(state: *const u8, state_length: usize) -> bool;
        pub fn basalekko_start(state: *mut u8, state_length: usize, read: u64, write: u64, told: *mut u64) -> u64;
        pub fn basalekko_run(
            state: *mut u8, state_length: usize, time: u64, number: u64, a: u64, b: u64, c: u64, d: u64,
            value: *const u8, value_length: usize, told: *mut u64,
        ) -> u64;
        pub fn basalekko_show(state: *const u8, state_length: usize, session: u64, key: u64, told: *mut u64) -> u64;
        pub fn basalekko_stretch(state: *const u8, state_length: usize, session: u64, key: u64, told: *mut u64);
    }
}

/// An answer as numbers.
pub struct Told {
    pub word: u64,
    pub detail: u64,
    pub place: usize,
}

fn answer(call: impl FnOnce(*mut u64) -> u64) -> Told {
    let mut told = [0; 2];
    let word = call(told.as_mut_ptr());
    Told { word, detail: told[0], place: told[1] as usize }
}

// Each call below reads and writes the slices within their lengths and two numbers in `told`, and keeps no pointer; the borrows say that
// nothing overlaps and that no one else looks meanwhile.

pub fn version() -> u64 {
    unsafe { exported::basalekko_version() }
}

pub fn well_formed(state: &[u8]) -> bool {
    unsafe { exported::basalekko_well_formed(state.as_ptr(), state.len()) }
}

pub fn start(state: &mut [u8], read: u64, write: u64) -> Told {
    answer(|told| unsafe { exported::basalekko_start(state.as_mut_ptr(), state.len(), read, write, told) })
}

pub fn run(state: &mut [u8], time: u64, number: u64, [a, b, c, d]: [u64; 4], value: &[u8]) -> Told {
    answer(|told| unsafe {
        exported::basalekko_run(state.as_mut_ptr(), state.len(), time, number, a, b, c, d, value.as_ptr(), value.len(), told)
    })
}

pub fn show(state: &[u8], session: u64, key: u64) -> Told {
    answer(|told| unsafe { exported::basalekko_show(state.as_ptr(), state.len(), session, key, told) })
}

/// The stretch's place and length.
pub fn stretch(state: &[u8], session: u64, key: u64) -> (usize, usize) {
    let mut told = [0u64; 2];
    unsafe { exported::basalekko_stretch(state.as_ptr(), state.len(), session, key, told.as_mut_ptr()) };
    (told[1] as usize, told[0] as usize)
}

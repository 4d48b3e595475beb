//! The program around a rehearsal: bytes in, bytes out, constant memory.

use super::lines::Lines;
use super::{Cache, Rehearsal};
use std::io::{ErrorKind, Read, Result, Write};

/// How much is read at once.
const CHUNK: usize = 1 << 16;

/// Rehearses all of the input. What has been read is answered before more is read.
pub fn rehearse<C: Cache>(cache: C, mut input: impl Read, mut output: impl Write) -> Result<C> {
    let mut rehearsal = Rehearsal::new(cache);
    let mut lines = Lines::default();
    let mut chunk = vec![0; CHUNK];
    let mut out = Vec::with_capacity(2 * CHUNK);
    loop {
        let length = match input.read(&mut chunk) {
            Ok(length) => length,
            Err(error) if error.kind() == ErrorKind::Interrupted => continue,
            Err(error) => return Err(error),
        };
        if length == 0 {
            break;
        }
        lines.feed(&chunk[..length], |line| rehearsal.line(line, &mut out));
        output.write_all(&out)?;
        output.flush()?;
        out.clear();
    }
    lines.finish(|line| rehearsal.line(line, &mut out));
    rehearsal.end(&mut out);
    output.write_all(&out)?;
    output.flush()?;
    Ok(rehearsal.cache)
}

//! The command line of the second program.

use second::generate::{generate, Profile};
use second::lent;
use second::machine::Machine;
use second::numbers::STATE_BYTES;
use second::rehearsal::{rehearse, LentState};
use std::fs::File;
use std::io::{self, BufWriter, ErrorKind, Read, Write};
use std::process::ExitCode;

const USAGE: &str = "usage:
  second rehearse < INPUT       the rehearsal, on structures of its own
  second lent < INPUT           the same, on a lent state of 65,536 bytes
  second state < INPUT > FILE   the lent state that the rehearsal ends with
  second check FILE...          `well formed` or `damaged`, a line for each file
  second generate --seed N --lines N [--profile NAME]
                                input for a rehearsal; the profiles are rules, lost, full, clocks,
                                counts, damaged, and mix where none is named";

fn main() -> ExitCode {
    let words: Vec<String> = std::env::args().skip(1).collect();
    let words: Vec<&str> = words.iter().map(String::as_str).collect();
    let ended = match words[..] {
        ["rehearse"] => rehearse(Machine::fresh(1, 1), io::stdin(), io::stdout()).map(drop),
        ["lent"] => rehearse(LentState::default(), io::stdin(), io::stdout()).map(drop),
        ["state"] => state(),
        ["generate", "--seed", seed, "--lines", lines] => input(seed, lines, "mix"),
        ["generate", "--seed", seed, "--lines", lines, "--profile", name] => {
            input(seed, lines, name)
        }
        ["check", ref files @ ..] if !files.is_empty() => return check(files),
        _ => Err(io::Error::new(ErrorKind::InvalidInput, USAGE)),
    };
    exit(ended)
}

/// A closed output ends the program quietly; any other error is told.
fn exit(ended: io::Result<()>) -> ExitCode {
    match ended {
        Ok(()) => ExitCode::SUCCESS,
        Err(error) if error.kind() == ErrorKind::BrokenPipe => ExitCode::SUCCESS,
        Err(error) => {
            eprintln!("second: {error}");
            ExitCode::from(2)
        }
    }
}

/// Writes generated input.
fn input(seed: &str, lines: &str, name: &str) -> io::Result<()> {
    let usage = || io::Error::new(ErrorKind::InvalidInput, USAGE);
    let seed = seed.parse().map_err(|_| usage())?;
    let lines = lines.parse().map_err(|_| usage())?;
    let profile = Profile::named(name).ok_or_else(usage)?;
    generate(seed, lines, profile, BufWriter::new(io::stdout()))
}

/// Writes the lent state that a rehearsal of the input ends with.
fn state() -> io::Result<()> {
    let state = rehearse(LentState::default(), io::stdin(), io::sink())?;
    io::stdout().write_all(state.bytes())?;
    io::stdout().flush()
}

/// Tells of each file whether it holds a well-formed state; fails if one does not.
fn check(files: &[&str]) -> ExitCode {
    let mut all_well = true;
    for file in files {
        match read_state(file) {
            Ok(bytes) => {
                let well = lent::well_formed(&bytes);
                all_well &= well;
                let word = if well { "well formed" } else { "damaged" };
                if let Err(error) = writeln!(io::stdout(), "{word}") {
                    return exit(Err(error));
                }
            }
            Err(error) => {
                eprintln!("second: {file}: {error}");
                return ExitCode::from(2);
            }
        }
    }
    ExitCode::from(u8::from(!all_well))
}

/// The file's bytes, and no more than show that its length is wrong.
fn read_state(file: &str) -> io::Result<Vec<u8>> {
    let mut bytes = Vec::new();
    File::open(file)?.take(STATE_BYTES as u64 + 1).read_to_end(&mut bytes)?;
    Ok(bytes)
}

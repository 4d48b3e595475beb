//! The proved library beside the second program, from a seed: `compare check|run [SEED [MORE]]`.

mod check;
mod commands;
mod run;
mod show;
mod start;
mod states;
mod tally;

use std::process::ExitCode;

fn main() -> ExitCode {
    let words: Vec<String> = std::env::args().skip(1).collect();
    let number = |place: usize, other: u64| words.get(place).and_then(|word| word.parse().ok()).unwrap_or(other);
    let (seed, more) = (number(1, 1), number(2, 1));
    let good = match words.first().map(String::as_str) {
        Some("check") => {
            let tally = check::compare(seed, more);
            println!("check: {} buffers, {} well formed, {} differences", tally.cases, tally.formed, tally.differences);
            tally.differences == 0
        }
        Some("run") => {
            let started = start::compare(seed, more).report("START", &start::answers());
            let (ran, shown) = run::compare(seed, more);
            let ran = ran.report("commands", &run::answers());
            shown.report("SHOW", &show::answers()) && ran && started
        }
        _ => {
            eprintln!("compare check|run [SEED [MORE]]");
            return ExitCode::from(2);
        }
    };
    ExitCode::from(u8::from(!good))
}

//! Speed, beside one plain pass over the 65,536 bytes and beside the second program, in one run.
//!
//! `bench times` and `bench commands` print the quickest of many rounds; `bench call` and `bench work` make so many calls and nothing
//! else, for a counter of instructions (`bench/measure` runs them under callgrind).

mod damages;
mod plans;
mod works;

use compare::proved;
use plans::{named, state, Plan, PLANS};
use std::hint::black_box;
use std::time::Instant;
use works::{Trial, PARTS, WORKS};

const USAGE: &str = "usage:
  bench times [STATE ...]             ns of the check
  bench commands                      commands a second
  bench call WHO STATE TIMES          the check alone; WHO is plain, proved or second, STATE fresh, light, full, random, climbing,
                                      falling, mixed, pair, idle, leases, squared, squared-leases, chained, chained-leases,
                                      or any-N, the Nth of many made by chance
  bench damaged STATE                 the check alone on each of some 2,000 damages of a state, or on buffers of wrong lengths (lengths), by
                                      both programs, with a mark to count from before, between and after them; says of each
                                      whether it is refused, and its name
  bench work PART STATE WORK TIMES    PART is proved, second, proved-check, second-check or nothing, STATE light or full,
                                      WORK get-hit, get-miss, session or sweep";

/// The floor: every byte read once.
fn plain(state: &[u8]) -> bool {
    state.iter().fold(0, |sum, byte| sum | byte) != 0
}

const JUDGES: [(&str, fn(&[u8]) -> bool); 3] =
    [("plain", plain), ("proved", proved::well_formed), ("second", second::lent::well_formed)];

/// Many, since the machine may have other work in some of them.
const ROUNDS: usize = 1_000;

/// The quickest of many rounds, in ns for each of its calls.
fn nanoseconds(rounds: u64, calls: u64, mut round: impl FnMut(u64)) -> f64 {
    let mut best = f64::MAX;
    for _ in 0..rounds {
        let begun = Instant::now();
        round(calls);
        best = best.min(begun.elapsed().as_nanos() as f64 / calls as f64);
    }
    best
}

fn judged(state: &[u8], judge: fn(&[u8]) -> bool, calls: u64) {
    for _ in 0..calls {
        assert!(judge(black_box(state)));
    }
}

/// For each state, the check's time; the judges take turns, so that what disturbs one disturbs all.
fn times(plans: &[Plan]) {
    for plan in plans {
        let state = state(plan);
        let mut best = [f64::MAX; JUDGES.len()];
        for _ in 0..ROUNDS {
            for (best, (_, judge)) in best.iter_mut().zip(JUDGES) {
                *best = best.min(nanoseconds(1, 50, |calls| judged(&state, judge, calls)));
            }
        }
        let [plain, proved, second] = best;
        println!(
            "{:<14} plain {plain:6.0} ns   proved {proved:6.0} ns, {:5.2} of it   second {second:6.0} ns, {:5.2} of it   proved / second {:.2}",
            plan.name, proved / plain, second / plain, proved / second,
        );
    }
}

/// For each state and work, commands a second of both programs, and the part of the time that the check takes.
fn commands() {
    println!("{:<6} {:<9} {:>9} {:>6} {:>9} {:>6} {:>14}", "state", "work", "proved/s", "check", "second/s", "check", "proved/second");
    for plan in ["light", "full"] {
        for work in &WORKS {
            let mut trial = Trial::new(&named(plan).expect("a plan"), work);
            let mut best = [f64::MAX; PARTS.len()];
            for _ in 0..ROUNDS {
                for (best, (_, part)) in best.iter_mut().zip(PARTS) {
                    *best = best.min(nanoseconds(1, 100, |calls| trial.repeat(part, calls)));
                }
            }
            let [proved, second, proved_check, second_check, nothing] = best;
            let (proved, second) = (proved - nothing, second - nothing);
            let a_second = |took: f64| 1e9 * trial.commands() as f64 / took;
            let share = |check: f64, took: f64| format!("{:.0} %", (100.0 * check / took).min(100.0));
            println!(
                "{plan:<6} {:<9} {:>9.0} {:>6} {:>9.0} {:>6} {:>14.2}",
                work.name, a_second(proved), share(proved_check, proved), a_second(second), share(second_check, second), second / proved,
            );
        }
    }
}

fn call(who: &str, plan: &str, times: &str) -> Option<()> {
    let (_, judge) = JUDGES.iter().find(|judge| judge.0 == who)?;
    judged(&state(&named(plan)?), *judge, times.parse().ok()?);
    Some(())
}

/// What is counted, from one mark to the next: a call of the proved check, then one of the second program's.
#[no_mangle]
#[inline(never)]
pub fn counted_mark(said: bool) -> bool {
    black_box(said)
}

/// Each damage of a state is judged once by both; "lengths" are buffers of wrong lengths.
fn damaged(plan: &str) -> Option<()> {
    let judge = |name: String, state: &[u8]| {
        counted_mark(true);
        let proved = counted_mark(proved::well_formed(black_box(state)));
        let second = counted_mark(second::lent::well_formed(black_box(state)));
        assert_eq!(proved, second, "{plan} {name}");
        println!("{} {name}", if proved { "formed" } else { "refused" });
    };
    match plan {
        "lengths" => damages::lengths(judge),
        _ => damages::each(&state(&named(plan)?), judge),
    }
    Some(())
}

fn work(part: &str, plan: &str, work: &str, times: &str) -> Option<()> {
    let (_, part) = PARTS.iter().find(|known| known.0 == part)?;
    let work = WORKS.iter().find(|known| known.name == work)?;
    Trial::new(&named(plan)?, work).repeat(*part, times.parse().ok()?);
    Some(())
}

fn main() {
    let words: Vec<String> = std::env::args().skip(1).collect();
    let words: Vec<&str> = words.iter().map(String::as_str).collect();
    let done = match words[..] {
        ["times"] => Some(times(&PLANS)),
        ["times", ref names @ ..] => names.iter().map(|name| named(name)).collect::<Option<Vec<_>>>().map(|plans| times(&plans)),
        ["commands"] => Some(commands()),
        ["call", who, plan, count] => call(who, plan, count),
        ["damaged", plan] => damaged(plan),
        ["work", part, plan, name, count] => work(part, plan, name, count),
        _ => None,
    };
    if done.is_none() {
        eprintln!("{USAGE}");
        std::process::exit(2);
    }
}

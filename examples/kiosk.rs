//! A kiosk reads a badge, misses and fills. A tenant moves while the kiosk is mid-read, and the stale fill is ignored.

use basalekko::{Answer, Cache, Command, Kind, Refusal, STATE_SIZE};

const BADGE: u64 = 42;
const READ_LIFETIME: u64 = 1_000;
const WRITE_LIFETIME: u64 = 5_000;

/// The cache with a clock that moves by a millisecond a command.
struct Lobby<'b> {
    cache: Cache<'b>,
    now: u64,
}

fn print(now: u64, said: &str, answer: &str) {
    println!("{now:>2}  {said:<42} {answer}");
}

fn words(answer: Answer) -> String {
    match answer {
        Answer::Session(n) => format!("SESSION {n}"),
        Answer::Lease(token) => format!("LEASE {token}"),
        Answer::Backoff(wait) => format!("BACKOFF {wait}"),
        Answer::Hit(value) => format!("HIT \"{}\"", String::from_utf8_lossy(value)),
        other => format!("{other:?}").to_uppercase(),
    }
}

impl Lobby<'_> {
    /// One command; the session or token that its answer carries, or 0.
    fn run(&mut self, said: &str, command: Command) -> Result<u64, Refusal> {
        self.now += 1;
        let answer = self.cache.run(self.now, command)?;
        print(self.now, said, &words(answer));
        Ok(match answer {
            Answer::Session(n) | Answer::Lease(n) => n,
            _ => 0,
        })
    }

    fn ask(&mut self) -> Result<u64, Refusal> {
        self.run("kiosk: which floors has badge 42?", Command::Get { session: 0, key: BADGE })
    }
}

fn main() -> Result<(), Refusal> {
    let mut state = Box::new([0; STATE_SIZE]);
    let mut register_says = "floor 3";
    let mut lobby = Lobby { cache: Cache::start(&mut state, READ_LIFETIME, WRITE_LIFETIME)?, now: 0 };
    print(0, "power-on", "READY");

    let token = lobby.ask()?;
    lobby.run("kiosk: the register says floor 3", Command::Fill { token, key: BADGE, value: register_says.as_bytes() })?;
    lobby.ask()?;
    lobby.run("the value is evicted", Command::Evict { key: BADGE })?;

    let token = lobby.ask()?;
    let read = register_says; // the kiosk has read the register, and is slow to say so

    let session = lobby.run("office: the tenant moves", Command::Begin)?;
    lobby.run("office: badge 42 will change", Command::Quar { session, key: BADGE, kind: Kind::Invalidate })?;
    lobby.run("office: I have taken no steps", Command::Validate { session, n: 0 })?;
    register_says = "floor 12";

    lobby.run("kiosk: the register says floor 3 (stale)", Command::Fill { token, key: BADGE, value: read.as_bytes() })?;
    lobby.ask()?;
    lobby.run("office: the register is written", Command::Done { session })?;

    let token = lobby.ask()?;
    lobby.run("kiosk: the register says floor 12", Command::Fill { token, key: BADGE, value: register_says.as_bytes() })?;
    lobby.ask()?;
    Ok(())
}

//! The states that the benchmarks run on.

use second::lent::encode;
use second::numbers::{KEYS, ROWS, SESSIONS};
use second::tables::{KeyRecord, Lease, RowRecord, SessionRecord, Staged, Standing, Tables};
use second::value::Value;

/// How full a state is, and how its numbers are chosen.
#[derive(Clone, Copy)]
pub struct Plan {
    pub name: &'static str,
    sessions: u64,
    session_numbers: Numbers,
    rows: Rows,
    values: u64,
    leases: u64,
    tokens: Numbers,
}

/// The Q rows.
#[derive(Clone, Copy)]
enum Rows {
    /// So many of kind 2, each alone on its key with a staged value; the sessions take turns.
    Alone(u64),
    /// So many of kind 1, of so many sessions, the last ones, each on the same keys.
    Shared(u64, u64),
}

/// How session numbers or tokens are chosen. Those that are alike in their low bits are hard for a check that tells numbers apart by these.
#[derive(Clone, Copy)]
enum Numbers {
    /// One after the other.
    Near,
    /// As if by chance.
    Random,
    /// Alike in their low bits, and in this order of size.
    Alike(Order),
    /// Few low parts and few high parts, each with each: every number is like others in its low bits and like others in those above.
    Squared,
    /// Alike in their low bits, and in those of the product by which the proved check tells such tokens apart; in no order.
    Chained,
    /// One after the other, but for the last two, which are alike in their low bits, the greater first.
    Pair,
}

#[derive(Clone, Copy)]
enum Order {
    Climbing,
    Falling,
    Mixed,
}

use Numbers::{Alike, Chained, Near, Pair, Random, Squared};
use Order::{Climbing, Falling, Mixed};
use Rows::{Alone, Shared};

/// The clock of every state, and the time at which its leases and its sessions lapse.
pub const CLOCK: u64 = 500;
const LEASES_END: u64 = 900;
pub const SESSIONS_END: u64 = 5_000;

/// Numbers that are alike are so in as many low bits as any of the checks looks at first.
const LOW_BITS: u32 = 14;

/// What undoes the product by which the proved check mixes a token's bits.
const UNMIX: u64 = 340_573_321;

const FULL: Plan = Plan { name: "full", sessions: 128, session_numbers: Near, rows: Shared(384, 128), values: 256, leases: 256, tokens: Near };

/// A full state with its session numbers and its tokens alike.
const fn alike(name: &'static str, order: Order) -> Plan {
    Plan { name, session_numbers: Alike(order), tokens: Alike(order), ..FULL }
}

pub const PLANS: [Plan; 14] = [
    Plan { name: "fresh", sessions: 0, session_numbers: Near, rows: Alone(0), values: 0, leases: 0, tokens: Near },
    Plan { name: "light", sessions: 10, session_numbers: Near, rows: Alone(20), values: 100, leases: 10, tokens: Near },
    FULL,
    Plan { name: "random", session_numbers: Random, tokens: Random, ..FULL },
    alike("climbing", Climbing),
    alike("falling", Falling),
    alike("mixed", Mixed),
    Plan { name: "pair", session_numbers: Pair, tokens: Pair, rows: Shared(384, 2), ..FULL },
    Plan { name: "idle", rows: Shared(0, 1), ..alike("idle", Mixed) },
    Plan { name: "leases", sessions: 0, rows: Shared(0, 1), ..alike("leases", Mixed) },
    Plan { name: "squared", tokens: Squared, ..alike("squared", Mixed) },
    Plan { name: "squared-leases", sessions: 0, rows: Shared(0, 1), tokens: Squared, ..alike("squared-leases", Mixed) },
    Plan { name: "chained", tokens: Chained, ..alike("chained", Mixed) },
    Plan { name: "chained-leases", sessions: 0, rows: Shared(0, 1), tokens: Chained, ..alike("chained-leases", Mixed) },
];

/// The plan of a name; "any-N" is the Nth of many made by chance.
pub fn named(name: &str) -> Option<Plan> {
    match name.strip_prefix("any-") {
        Some(number) => number.parse().ok().map(any),
        None => PLANS.into_iter().find(|plan| plan.name == name),
    }
}

/// A sequence of numbers as if by chance.
struct Chance(u64);

impl Chance {
    /// One below the end.
    fn below(&mut self, end: u64) -> u64 {
        self.0 = self.0.wrapping_mul(6_364_136_223_846_793_005).wrapping_add(1_442_695_040_888_963_407);
        (self.0 >> 33) % end
    }

    /// None, all, or so many in between.
    fn up_to(&mut self, all: u64) -> u64 {
        match self.below(4) {
            0 => 0,
            1 => all,
            _ => self.below(all + 1),
        }
    }

    fn numbers(&mut self) -> Numbers {
        [Near, Random, Alike(Climbing), Alike(Falling), Alike(Mixed), Squared, Chained, Pair][self.below(8) as usize]
    }
}

/// A plan made by chance.
fn any(number: u64) -> Plan {
    let mut chance = Chance(number);
    chance.below(2);
    let sessions = chance.up_to(SESSIONS as u64);
    let holders = 1 + chance.up_to(sessions.max(1) - 1);
    let most = if sessions == 0 { 0 } else { (holders * 128).min(ROWS as u64) };
    Plan {
        name: "any",
        sessions,
        session_numbers: chance.numbers(),
        rows: Shared(chance.up_to(most), holders),
        values: chance.up_to(KEYS as u64),
        leases: chance.up_to(KEYS as u64),
        tokens: chance.numbers(),
    }
}

/// The first so many numbers of a kind, no two the same.
fn numbers(kind: Numbers, count: usize) -> Vec<u64> {
    match kind {
        Near => (1..=count as u64).collect(),
        Random => {
            let mut chance = Chance(count as u64);
            let mut found = Vec::new();
            while found.len() < count {
                let number = 1 + chance.below(1 << 31);
                if !found.contains(&number) {
                    found.push(number);
                }
            }
            found
        }
        Alike(order) => {
            let mut high: Vec<u64> = (1..=count as u64).map(|n| n * 100_003 % (1 << (32 - LOW_BITS))).collect();
            match order {
                Climbing => high.sort_unstable(),
                Falling => high.sort_unstable_by(|a, b| b.cmp(a)),
                Mixed => (),
            }
            high.into_iter().map(|n| (n << LOW_BITS) + 7).collect()
        }
        Squared => (0..count as u64).map(|n| ((n * 37 % 256) << 24) + ((n / 16 * 5 % 16) << 12) + 1 + n * 7 % 16).collect(),
        Chained => (0..count as u64).map(|n| ((n * 37 % 1024 << 12) + 1) * UNMIX % (1 << 32)).collect(),
        Pair => {
            let mut found: Vec<u64> = (3..count as u64 + 1).chain([(1 << LOW_BITS) + 2, 2]).collect();
            found.drain(..found.len() - count);
            found
        }
    }
}

/// A well-formed state of the plan.
pub fn state(plan: &Plan) -> Vec<u8> {
    encode(&tables(plan))
}

/// The key records: the first keys have the rows, and no lease; the leases are on the keys from the last down.
fn keys(plan: &Plan) -> impl Iterator<Item = KeyRecord> + '_ {
    let held_keys = match plan.rows {
        Alone(rows) => rows,
        Shared(rows, holders) => rows.div_ceil(holders),
    };
    let first_leased = held_keys.max(KEYS as u64 - plan.leases);
    let tokens = numbers(plan.tokens, KEYS - first_leased as usize);
    (0..KEYS as u64).map(move |key| {
        let spread = key * 151 % KEYS as u64;
        let value = (spread < plan.values)
            .then(|| Value::of(&[b'v'; 64][..(spread * 37 % 65) as usize]).unwrap_or(Value::EMPTY));
        let lease = (key >= first_leased).then(|| Lease { token: tokens[(key - first_leased) as usize], deadline: LEASES_END });
        KeyRecord { value, lease }
    })
}

/// The row at a place, if the plan has it.
fn row(plan: &Plan, session_numbers: &[u64], place: u64) -> Option<RowRecord> {
    match plan.rows {
        Alone(rows) => (place < rows).then(|| RowRecord {
            session: session_numbers[(place % plan.sessions) as usize],
            key: place as u8,
            kind: 2,
            staged: Staged::Value(Value::of(b"staged").unwrap_or(Value::EMPTY)),
        }),
        Shared(rows, holders) => (place < rows).then(|| RowRecord {
            session: session_numbers[(plan.sessions - 1 - place % holders) as usize],
            key: (place / holders) as u8,
            kind: 1,
            staged: Staged::Nothing,
        }),
    }
}

/// The tables of the plan.
pub fn tables(plan: &Plan) -> Tables {
    let session_numbers = numbers(plan.session_numbers, plan.sessions as usize);
    let sessions = (0..SESSIONS).map(|place| {
        session_numbers.get(place).map(|number| SessionRecord {
            number: *number,
            standing: Standing::Open { deadline: SESSIONS_END },
            count: place as u64,
        })
    });
    Tables {
        clock: CLOCK,
        read_lifetime: 1_000,
        write_lifetime: 5_000,
        next_session: u64::from(u32::MAX),
        next_token: u64::from(u32::MAX),
        keys: keys(plan).collect(),
        rows: (0..ROWS as u64).map(|place| row(plan, &session_numbers, place)).collect(),
        sessions: sessions.collect(),
    }
}

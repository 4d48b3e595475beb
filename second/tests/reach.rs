//! What generated input reaches: every answer word, every refusal that a rehearsal can give, every
//! broken rule; and that the rule-keeping profile breaks none.

mod common;

use common::{generated, rehearsed};
use second::generate::Profile;
use std::collections::BTreeMap;

const LINES: u64 = 20_000;

/// How often each word (a refusal with its number) and each broken rule is printed.
fn counted(profile: Profile) -> BTreeMap<String, u64> {
    let printed = rehearsed(&generated(1, LINES, profile));
    let mut counts = BTreeMap::new();
    for line in printed.lines().take(LINES as usize) {
        let columns: Vec<&str> = line.split(' ').collect();
        let word = match columns[1] {
            "REFUSED" => format!("REFUSED {}", columns[2]),
            word => word.to_string(),
        };
        *counts.entry(word).or_default() += 1;
        if columns[3] != "0" {
            *counts.entry(format!("rule {}", columns[3])).or_default() += 1;
        }
    }
    counts
}

const WORDS: [&str; 23] = [
    "READY",
    "SESSION",
    "HIT",
    "ASK",
    "BACKOFF",
    "LEASE",
    "STORED",
    "IGNORED",
    "HELD",
    "GRANTED",
    "ABORTED",
    "STAGED",
    "REPEATED",
    "DROPPED",
    "VALIDATED",
    "LOST",
    "DONE",
    "UNDONE",
    "EVICTED",
    "EMPTY",
    "TICKED",
    "WRITTEN",
    "UNREADABLE",
];

#[test]
fn everything_is_reached() {
    let mut all: BTreeMap<String, u64> = BTreeMap::new();
    for profile in Profile::ALL {
        for (word, count) in counted(profile) {
            *all.entry(word).or_default() += count;
        }
    }
    let mut wanted: Vec<String> = WORDS.map(String::from).to_vec();
    wanted.extend((2..=12).map(|number| format!("REFUSED {number}")));
    wanted.extend((1..=4).map(|rule| format!("rule {rule}")));
    for word in &wanted {
        let least = if word == "READY" { 7 } else { 10 };
        assert!(all.get(word).is_some_and(|count| *count >= least), "{word}: {:?}", all.get(word));
    }
    assert_eq!(all.len(), wanted.len(), "{all:?}");
}

/// Asserts that the profile prints each of these often.
fn reaches(profile: Profile, wanted: &[&str]) {
    let counts = counted(profile);
    for word in wanted {
        assert!(counts.get(*word).is_some_and(|count| *count >= 10), "{word}: {counts:?}");
    }
}

#[test]
fn each_profile_reaches_what_it_is_for() {
    let lost = ["REPEATED", "REFUSED 2", "REFUSED 5", "REFUSED 10", "LOST", "IGNORED"];
    reaches(Profile::Lost, &[&lost[..], &["rule 1", "rule 2", "rule 3", "rule 4"]].concat());
    reaches(Profile::Full, &["REFUSED 11", "REFUSED 12", "HELD", "ABORTED", "GRANTED"]);
    reaches(Profile::Clocks, &["REFUSED 2", "REFUSED 5", "BACKOFF", "LEASE", "VALIDATED"]);
    reaches(Profile::Counts, &["STAGED", "DROPPED", "HIT", "ASK", "DONE"]);
    reaches(Profile::Damaged, &["UNREADABLE", "REFUSED 3", "REFUSED 4", "HIT"]);
    let mix = ["UNREADABLE", "REFUSED 11", "REFUSED 12", "rule 1", "rule 2"];
    reaches(Profile::Mix, &mix);
}

#[test]
fn rule_keeping_profiles_break_no_rule() {
    for profile in [Profile::Rules, Profile::Full, Profile::Clocks, Profile::Counts] {
        for seed in 0..4 {
            let printed = rehearsed(&generated(seed, LINES, profile));
            let end = format!("end {LINES} 0");
            assert_eq!(printed.lines().last(), Some(&end[..]), "{profile:?} {seed}");
        }
    }
}

#[test]
fn the_same_seed_gives_the_same_input() {
    for profile in Profile::ALL {
        assert!(generated(5, 700, profile) == generated(5, 700, profile));
        assert!(generated(5, 700, profile) != generated(6, 700, profile));
        let input = generated(5, 700, profile);
        assert!(rehearsed(&input).contains("\nend 700 "), "{profile:?}");
    }
}

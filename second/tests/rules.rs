//! Each of the four rules, kept and broken, and the end line.

mod common;

use common::{answers, rehearsed};

/// The rules that these lines break, after `A 1000 5000`, with their line numbers from 1.
fn broken(lines: &[&str]) -> Vec<(usize, char)> {
    let lines = [&["A 1000 5000"], lines].concat();
    let answers = answers(&lines);
    let rules = answers.iter().map(|line| line.chars().last().unwrap());
    rules.enumerate().filter(|(_, rule)| *rule != '0').collect()
}

#[test]
fn rule_1_a_fill_of_another_value() {
    assert_eq!(broken(&["0 G 0 7", "0 F 1 7 -"]), []);
    assert_eq!(broken(&["0 G 0 7", "0 F 1 7 61"]), [(2, '1')]);
    assert_eq!(broken(&["0 G 0 7", "0 F 1 8 61"]), []);
    assert_eq!(broken(&["0 G 0 7", "1000 F 1 7 61"]), []);
}

#[test]
fn rule_1_looks_at_the_grant_and_at_the_fill() {
    let written = ["0 G 0 7", "0 C 9 7 61", "0 C 9 7 62"];
    let with = |fill| broken(&[&written[..], &[fill]].concat());
    assert_eq!(with("0 F 1 7 -"), [(2, '2'), (3, '2')]);
    assert_eq!(with("0 F 1 7 62"), [(2, '2'), (3, '2')]);
    assert_eq!(with("0 F 1 7 61"), [(2, '2'), (3, '2'), (4, '1')]);
}

#[test]
fn rule_2_who_the_register_writes_for() {
    let sealed = ["0 B", "0 Q 1 7 1", "0 V 1 0"];
    let with = |write| broken(&[&sealed[..], &[write]].concat());
    assert_eq!(with("0 C 1 7 61"), []);
    assert_eq!(with("0 C 1 8 61"), [(4, '2')]);
    assert_eq!(with("0 C 0 7 61"), [(4, '2')]);
    assert_eq!(with("0 C 2 7 61"), [(4, '2')]);
    assert_eq!(with("0 C 4294967297 7 61"), [(4, '2')]);
    assert_eq!(broken(&["0 B", "0 Q 1 7 1", "0 C 1 7 61"]), [(3, '2')]);
    assert_eq!(broken(&["0 B", "0 Q 1 7 1", "0 V 1 0", "0 X 1", "0 C 1 7 61"]), [(5, '2')]);
}

#[test]
fn rule_3_undo_after_a_write() {
    let sealed = ["0 B", "0 Q 1 7 1", "0 V 1 0"];
    let with = |lines: &[&'static str]| broken(&[&sealed[..], lines].concat());
    assert_eq!(with(&["0 U 1"]), []);
    assert_eq!(with(&["0 C 1 7 61", "0 U 1"]), [(5, '3')]);
    assert_eq!(with(&["0 C 1 8 61", "0 U 1"]), [(4, '2'), (5, '3')]);
    assert_eq!(with(&["0 C 1 7 61", "0 U 2"]), []);
    assert_eq!(with(&["0 C 1 7 61", "0 X 1"]), []);
    assert_eq!(broken(&["0 B", "0 C 1 7 61", "0 U 1"]), [(2, '2'), (3, '3')]);
    assert_eq!(broken(&["0 C 1 7 61", "0 B", "0 U 1"]), [(1, '2')]);
}

#[test]
fn rule_3_counts_a_session_that_has_yet_to_end() {
    let lines = ["0 B", "5000 C 1 7 61", "4999 U 1"];
    assert_eq!(broken(&lines), [(2, '2'), (3, '3')]);
    let lines = ["0 B", "5000 C 1 7 61", "5000 U 1"];
    assert_eq!(broken(&lines), [(2, '2')]);
}

#[test]
fn rule_3_over_many_sessions() {
    let mut lines = vec!["A 1000 5000".to_string()];
    for session in 1..=1_000 {
        lines.push("0 B".to_string());
        lines.push(format!("0 C {session} 7 61"));
        if session % 3 != 0 {
            lines.push(format!("0 U {session}"));
        }
        if session % 120 == 0 {
            lines.push(format!("0 V {} 0", session - 3));
            for ended in (session - 117..=session).step_by(3) {
                lines.push(format!("0 U {ended}"));
            }
        }
    }
    let printed = rehearsed((lines.join("\n") + "\n").as_bytes());
    let rule_3 = printed.lines().filter(|line| line.ends_with("UNDONE - 3")).count();
    let undone = printed.lines().filter(|line| line.contains("UNDONE")).count();
    assert_eq!(rule_3, undone);
    assert!(undone > 900);
}

#[test]
fn rule_4_every_value_that_done_caches() {
    let staged = ["0 B", "0 Q 1 7 2", "0 Q 1 8 2", "0 Q 1 9 1", "0 S 1 0 7 61", "0 S 1 1 8 -"];
    let with = |lines: &[&'static str]| broken(&[&staged[..], &["0 V 1 2"], lines].concat());
    assert_eq!(with(&["0 X 1"]), [(8, '4')]);
    assert_eq!(with(&["0 C 1 7 61", "0 X 1"]), []);
    assert_eq!(with(&["0 C 1 7 61", "0 C 1 9 62", "0 X 1"]), []);
    assert_eq!(with(&["0 C 1 7 61", "0 C 1 8 62", "0 X 1"]), [(10, '4')]);
    assert_eq!(with(&["0 U 1"]), []);
}

#[test]
fn rule_4_needs_an_accepted_done() {
    assert_eq!(broken(&["0 B", "0 Q 1 7 2", "0 S 1 0 7 61", "0 X 1"]), []);
    assert_eq!(broken(&["0 B", "0 Q 1 7 3", "0 D 1 0 7 1 61", "0 V 1 1", "0 X 1"]), []);
}

#[test]
fn the_end_line_counts_lines_with_a_rule_broken() {
    let printed = rehearsed(b"A 1 9\n0 C 1 7 61\n0 G 0 7\n0 F 1 7 62\nx\n0 C 1 7 62\n");
    assert_eq!(printed.lines().last(), Some("end 6 3"));
}

//! The examples in the project's documents and inputs say what the rehearsal prints.

mod common;

use common::rehearsed;
use std::path::Path;

fn file(name: &str) -> String {
    let path = Path::new(env!("CARGO_MANIFEST_DIR")).join("..").join(name);
    std::fs::read_to_string(path).unwrap()
}

#[test]
fn examples_of_the_commands() {
    let text = file("docs/COMMANDS.md");
    let marked = |mark| text.lines().filter_map(move |line| line.strip_prefix(mark));
    let input: Vec<&str> = marked("> ").collect();
    let output: Vec<&str> = marked("< ").collect();
    assert_eq!(input.len(), 16);
    let printed = rehearsed(input.join("\n").as_bytes());
    let printed: Vec<&str> = printed.lines().collect();
    assert_eq!(printed[..16], output);
    assert_eq!(printed[16], "end 16 0");
}

#[test]
fn example_of_a_move() {
    let printed = rehearsed(file("examples/move.txt").as_bytes());
    let answers = [
        "READY - 0",
        "LEASE 1 0",
        "STORED - 0",
        "HIT - 0",
        "SESSION 1 0",
        "GRANTED - 0",
        "VALIDATED - 0",
        "HIT - 0",
        "WRITTEN - 0",
        "DONE - 0",
        "LEASE 2 0",
        "STORED - 0",
        "HIT 666c6f6f72203132 0",
    ];
    let numbered = answers.iter().enumerate().map(|(at, answer)| format!("{} {answer}", at + 1));
    let lines: Vec<String> = numbered.chain(["end 13 0".to_string()]).collect();
    assert_eq!(printed.lines().collect::<Vec<_>>(), lines);
}

//! The program itself: its commands, a closed output, bytes of any kind.

mod common;

use common::rehearsed;
use second::generate::Random;
use second::numbers::STATE_BYTES;
use std::io::Write;
use std::process::{Child, Command, Output, Stdio};

/// The program, started.
fn started(words: &[&str]) -> Child {
    Command::new(env!("CARGO_BIN_EXE_second"))
        .args(words)
        .stdin(Stdio::piped())
        .stdout(Stdio::piped())
        .stderr(Stdio::piped())
        .spawn()
        .unwrap()
}

/// Runs the program on an input.
fn second(words: &[&str], input: &[u8]) -> Output {
    let mut child = started(words);
    let mut stdin = child.stdin.take().unwrap();
    let input = input.to_vec();
    let writer = std::thread::spawn(move || drop(stdin.write_all(&input)));
    let output = child.wait_with_output().unwrap();
    writer.join().unwrap();
    output
}

#[test]
fn both_rehearsals_print_the_same() {
    let input = second(&["generate", "--seed", "9", "--lines", "5000"], b"").stdout;
    let printed = rehearsed(&input);
    assert!(printed.ends_with('\n') && printed.lines().count() == 5_001);
    for word in ["rehearse", "lent"] {
        let output = second(&[word], &input);
        assert!(output.status.success());
        assert!(output.stdout == printed.as_bytes());
        assert!(output.stderr.is_empty());
    }
}

#[test]
fn no_input() {
    for word in ["rehearse", "lent"] {
        assert_eq!(second(&[word], b"").stdout, b"end 0 0\n");
    }
}

#[test]
fn a_closed_output_ends_the_program_quietly() {
    let input = "0 T\n".repeat(200_000);
    for words in [&["rehearse"][..], &["lent"], &["generate", "--seed", "1", "--lines", "100000"]] {
        let mut child = started(words);
        drop(child.stdout.take());
        drop(child.stdin.take().unwrap().write_all(input.as_bytes()));
        let output = child.wait_with_output().unwrap();
        assert_eq!(String::from_utf8_lossy(&output.stderr), "");
        assert!(output.status.success());
    }
}

#[test]
fn check_tells_well_formed_from_damaged() {
    let directory = std::env::temp_dir().join(format!("second-{}", std::process::id()));
    std::fs::create_dir_all(&directory).unwrap();
    let put = |name: &str, bytes: &[u8]| {
        let path = directory.join(name);
        std::fs::write(&path, bytes).unwrap();
        path.to_str().unwrap().to_string()
    };
    let state = second(&["state"], b"A 1000 5000\n0 B\n0 Q 1 7 2\n0 G 0 8\n").stdout;
    assert_eq!(state.len(), STATE_BYTES);
    let well = put("well", &state);
    let short = put("short", &state[1..]);
    let long = put("long", &[&state[..], b"\0"].concat());
    let output = second(&["check", &well, &short, &long, &well], b"");
    assert_eq!(output.stdout, b"well formed\ndamaged\ndamaged\nwell formed\n");
    assert_eq!(output.status.code(), Some(1));
    assert_eq!(second(&["check", &well], b"").status.code(), Some(0));
    let missing = directory.join("missing");
    assert_eq!(second(&["check", missing.to_str().unwrap()], b"").status.code(), Some(2));
    std::fs::remove_dir_all(&directory).unwrap();
}

#[test]
fn words_that_mean_nothing() {
    for words in [
        &[][..],
        &["rehears"],
        &["rehearse", "x"],
        &["check"],
        &["generate"],
        &["generate", "--seed", "x", "--lines", "1"],
        &["generate", "--seed", "1", "--lines", "1", "--profile", "none"],
    ] {
        let output = second(words, b"");
        assert_eq!(output.status.code(), Some(2), "{words:?}");
        assert!(output.stdout.is_empty() && !output.stderr.is_empty());
    }
}

#[test]
fn bytes_of_any_kind_do_no_harm() {
    let mut random = Random::new(8);
    let few = b"0123456789 ABCQGFX\n\n-af\r\t\0";
    for round in 0..3_000 {
        let length = random.below(if round % 50 == 0 { 100_000 } else { 400 });
        let mut input = if random.chance(50) { b"A 10 10\n".to_vec() } else { Vec::new() };
        for _ in 0..length {
            input.push(match round % 2 {
                0 => random.any() as u8,
                _ => random.pick(few).unwrap(),
            });
        }
        let lines =
            input.split(|byte| *byte == b'\n').count() - usize::from(input.ends_with(b"\n"));
        let lines = if input.is_empty() { 0 } else { lines };
        let printed = rehearsed(&input);
        let end = format!("end {lines} ");
        assert!(printed.lines().last().unwrap().starts_with(&end), "{printed}");
    }
}

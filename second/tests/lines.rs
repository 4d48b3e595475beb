//! Which lines can be read, how input is cut into lines, and the columns of the output.

mod common;

use common::{answers, rehearsed};
use second::rehearsal::lines::Lines;

/// What a line answers after `A 1000 5000`.
fn after_start(line: &str) -> String {
    answers(&["A 1000 5000", line]).pop().unwrap()
}

const UNREADABLE: &str = "UNREADABLE - 0";

#[test]
fn lines_that_cannot_be_read() {
    for line in [
        "",
        " ",
        "T",
        "0",
        "0 ",
        "0 T ",
        " 0 T",
        "0  T",
        "0\tT",
        "0 T\r",
        "0 T\0",
        "\u{0}0 T",
        "00 T",
        "01 T",
        "+1 T",
        "-1 T",
        "1. T",
        "1e3 T",
        "0x1 T",
        "- T",
        "18446744073709551616 T",
        "99999999999999999999 T",
        "100000000000000000000 T",
        "0 t",
        "0 TT",
        "0 Z",
        "0 A 1000 5000",
        "0 T 1",
        "0 B 1",
        "0 G 0",
        "0 G 0 7 1",
        "0 G 00 7",
        "0 G 0 07",
        "0 G 0 18446744073709551616",
        "0 G - 7",
        "0 F 1 7",
        "0 F 1 7 ",
        "0 F 1 7 6",
        "0 F 1 7 616",
        "0 F 1 7 6A",
        "0 F 1 7 6g",
        "0 F 1 7 0x61",
        "0 F 1 7 --",
        "0 F 1 7 -61",
        "0 F 1 7 61 ",
        "0 F 1 7 61 61",
        "0 Q 1 7",
        "0 S 1 0 7",
        "0 D 1 0 7 1",
        "0 D 1 0 7 1 6",
        "0 V 1",
        "0 X",
        "0 U",
        "0 E",
        "A 1000 5000",
        "A 1 1",
        "A 0 0",
        "A",
    ] {
        assert_eq!(after_start(line), UNREADABLE, "{line:?}");
    }
}

#[test]
fn lines_that_can_be_read() {
    for (line, answer) in [
        ("0 T", "TICKED - 0"),
        ("281474976710655 T", "TICKED - 0"),
        ("281474976710656 T", "REFUSED 2 0"),
        ("18446744073709551615 T", "REFUSED 2 0"),
        ("0 G 0 255", "LEASE 1 0"),
        ("0 G 0 256", "REFUSED 3 0"),
        ("0 G 0 18446744073709551615", "REFUSED 3 0"),
        ("0 G 18446744073709551615 0", "REFUSED 5 0"),
        ("0 F 1 7 -", "IGNORED - 0"),
        ("0 F 18446744073709551615 7 00ff", "IGNORED - 0"),
        ("0 Q 1 7 9", "REFUSED 3 0"),
        ("0 S 1 1000 7 -", "REFUSED 3 0"),
        ("0 D 1 0 7 5 -", "REFUSED 3 0"),
        ("0 D 1 0 7 4 -", "REFUSED 5 0"),
        ("0 V 1 1001", "REFUSED 3 0"),
        ("0 X 1", "REFUSED 5 0"),
        ("0 U 1", "REFUSED 5 0"),
        ("0 E 0", "EMPTY - 0"),
        ("0 B", "SESSION 1 0"),
    ] {
        assert_eq!(after_start(line), answer, "{line:?}");
    }
}

#[test]
fn register_writes() {
    let longest = "61".repeat(64);
    let long = "61".repeat(65);
    for (line, answer) in [
        ("0 C 1 255 -".to_string(), "WRITTEN - 2"),
        (format!("18446744073709551615 C 18446744073709551615 0 {longest}"), "WRITTEN - 2"),
        (format!("0 C 1 0 {long}"), UNREADABLE),
        ("0 C 1 256 -".to_string(), UNREADABLE),
        ("0 C 1 7".to_string(), UNREADABLE),
        ("0 C 1 7 - -".to_string(), UNREADABLE),
        ("C 1 7 -".to_string(), UNREADABLE),
        ("00 C 1 7 -".to_string(), UNREADABLE),
        ("0 C 18446744073709551616 7 -".to_string(), UNREADABLE),
    ] {
        assert_eq!(after_start(&line), answer, "{line:?}");
    }
}

#[test]
fn a_register_write_moves_no_clock() {
    let lines = ["A 1000 5000", "10 T", "5 C 1 7 61", "99 C 1 7 61", "10 T", "9 T"];
    let answers = answers(&lines);
    assert_eq!(answers[4..], ["TICKED - 0", "REFUSED 2 0"]);
}

#[test]
fn longest_line_and_long_values() {
    let fits = format!("0 F 1 7 {}", "61".repeat(96));
    assert_eq!(fits.len(), 200);
    assert_eq!(after_start(&fits), "REFUSED 4 0");
    let over = format!("10 F 1 7 {}", "61".repeat(96));
    assert_eq!(over.len(), 201);
    assert_eq!(after_start(&over), UNREADABLE);
    let spaces = format!("0 T{}", " ".repeat(1_000));
    assert_eq!(after_start(&spaces), UNREADABLE);
    let longest_value = format!("0 F 1 7 {}", "61".repeat(64));
    assert_eq!(after_start(&longest_value), "IGNORED - 0");
}

#[test]
fn only_an_a_line_that_answers_ready_starts() {
    let lines = [
        "0 T",
        "0 C 1 7 61",
        "A 0 5000",
        "A 1000 600001",
        "A 1000",
        "A 1000 18446744073709551616",
        "A 01 1",
        "0 T",
        "A 600000 1",
        "0 T",
        "A 600000 1",
        "A 0 1",
        "0 T",
    ];
    let answers = answers(&lines);
    let words = [
        UNREADABLE,
        UNREADABLE,
        "REFUSED 3 0",
        "REFUSED 3 0",
        UNREADABLE,
        UNREADABLE,
        UNREADABLE,
        UNREADABLE,
        "READY - 0",
        "TICKED - 0",
        UNREADABLE,
        UNREADABLE,
        "TICKED - 0",
    ];
    assert_eq!(answers, words);
}

#[test]
fn how_input_ends() {
    assert_eq!(rehearsed(b""), "end 0 0\n");
    assert_eq!(rehearsed(b"\n"), "1 UNREADABLE - 0\nend 1 0\n");
    assert_eq!(rehearsed(b"\n\n"), "1 UNREADABLE - 0\n2 UNREADABLE - 0\nend 2 0\n");
    assert_eq!(rehearsed(b"A 1 1"), "1 READY - 0\nend 1 0\n");
    assert_eq!(rehearsed(b"A 1 1\n"), "1 READY - 0\nend 1 0\n");
    assert_eq!(rehearsed(b"A 1 1\n0"), "1 READY - 0\n2 UNREADABLE - 0\nend 2 0\n");
    assert_eq!(rehearsed(b"A 1 1\n0 T"), "1 READY - 0\n2 TICKED - 0\nend 2 0\n");
}

#[test]
fn a_line_of_megabytes_is_one_line() {
    let mut input = b"A 1 1\n".to_vec();
    input.extend(std::iter::repeat_n(b'0', 5_000_000));
    input.extend(b"\n0 T\n");
    input.extend(std::iter::repeat_n(b'\r', 300));
    let printed = "1 READY - 0\n2 UNREADABLE - 0\n3 TICKED - 0\n4 UNREADABLE - 0\nend 4 0\n";
    assert_eq!(rehearsed(&input), printed);
}

#[test]
fn the_empty_value_and_no_wait_are_printed() {
    let lines = [
        "A 1000 5000",
        "0 G 0 7",
        "0 F 1 7 -",
        "0 G 0 7",
        "0 B",
        "0 Q 1 7 1",
        "0 V 1 0",
        "0 E 7",
        "0 G 0 7",
        "0 G 1 7",
    ];
    let answers = answers(&lines);
    assert_eq!(answers[3], "HIT - 0");
    assert_eq!(answers[8], "BACKOFF 0 0");
    assert_eq!(answers[9], "ASK - 0");
}

/// The lines of an input that arrives in pieces of one size.
fn cut(input: &[u8], piece: usize) -> Vec<Vec<u8>> {
    let mut cut = Vec::new();
    let mut lines = Lines::default();
    for bytes in input.chunks(piece) {
        lines.feed(bytes, |line| cut.push(line.to_vec()));
    }
    lines.finish(|line| cut.push(line.to_vec()));
    cut
}

#[test]
fn lines_do_not_depend_on_how_input_arrives() {
    let mut input = b"A 1 1\n\n0 T\n".to_vec();
    for length in [199, 200, 201, 202, 700] {
        input.extend(std::iter::repeat_n(b'x', length));
        input.push(b'\n');
    }
    input.extend(b"0 T");
    let whole = cut(&input, input.len());
    assert_eq!(whole.len(), 9);
    let lengths: Vec<usize> = whole.iter().map(Vec::len).collect();
    assert_eq!(lengths, [5, 0, 3, 199, 200, 201, 201, 201, 3]);
    for piece in 1..300 {
        assert_eq!(cut(&input, piece), whole, "{piece}");
    }
}

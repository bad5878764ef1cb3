//! The built program: what it writes, and its exit status.

use std::io::Write;
use std::process::{Command, Output, Stdio};

/// Doubled plan A.
const PLAN_A: &[u8] = include_bytes!("../../../tests/plans/a.plan");
/// The lines of plan A of document 01, in the old format.
const OLD_PLAN_A_LINES: &[u8] = b"1 0 1\n1 0 2\n2 1 3\n2 2 3\n3 2 3\n4 3 4\n";

fn planconv(words: &[&str], input: &[u8]) -> Output {
    let mut command = Command::new(env!("CARGO_BIN_EXE_planconv"));
    command.args(words).stdin(Stdio::piped());
    command.stdout(Stdio::piped()).stderr(Stdio::piped());
    let mut child = command.spawn().unwrap();
    // Where the words are wrong the program reads nothing, and the pipe may be closed.
    let _ = child.stdin.take().unwrap().write_all(input);
    child.wait_with_output().unwrap()
}

/// The standard output of a conversion that succeeds.
fn converted(word: &str, input: &[u8]) -> Vec<u8> {
    let output = planconv(&[word], input);
    assert!(output.status.success() && output.stderr.is_empty());
    output.stdout
}

/// The message of a run that fails.
fn message(words: &[&str], input: &[u8]) -> String {
    let output = planconv(words, input);
    assert_eq!(output.status.code(), Some(1));
    assert!(output.stdout.is_empty());
    String::from_utf8(output.stderr).unwrap()
}

#[test]
fn plan_a_makes_the_round_trip() {
    let old = converted("to-bytes", OLD_PLAN_A_LINES);
    assert_eq!(converted("to-lines", &old), OLD_PLAN_A_LINES);
    assert_eq!(converted("double", &old), PLAN_A);
    let lines = converted("to-lines", PLAN_A);
    assert!(lines.starts_with(b"1 0 1\n1 0 2\n1 1 0\n1 2 0\n2 1 3\n"));
    assert_eq!(converted("to-bytes", &lines), PLAN_A);
}

#[test]
fn empty_input_is_an_empty_plan() {
    assert!(converted("to-bytes", b"").is_empty());
    assert!(converted("to-lines", b"").is_empty());
    assert!(converted("double", b"").is_empty());
}

#[test]
fn a_wrong_line_leaves_standard_output_empty() {
    let said = message(&["to-bytes"], b"1 0 1\n2 1 x\n");
    assert_eq!(said, "line 2: not a number: \"x\"\n");
}

#[test]
fn a_wrong_length_leaves_standard_output_empty() {
    for word in ["to-lines", "double"] {
        let said = message(&[word], &PLAN_A[..11]);
        assert_eq!(
            said,
            "11 bytes are no multiple of 6: bytes behind the last record: 5\n"
        );
    }
}

#[test]
fn a_plan_that_is_not_in_the_old_format_leaves_standard_output_empty() {
    assert_eq!(
        message(&["double"], PLAN_A),
        "no plan in the old format: position 2, record 1 1 0: a is not below b\n"
    );
    let twice = PLAN_A[..6].repeat(2);
    assert_eq!(
        message(&["double"], &twice),
        "no plan in the old format: position 1, record 1 0 1: it is not above the record before it\n"
    );
}

#[test]
fn a_fault_is_explained() {
    let said = converted("explain", PLAN_A);
    assert_eq!(said, b"no fault: stations 5, slots 4, contacts 12\n");
    let said = planconv(&["explain", "4", "4"], PLAN_A);
    let said = String::from_utf8(said.stdout).unwrap();
    assert_eq!(
        said,
        "refused 4: record 11 of 12 (position 10: slot 4, station 3 sends, station 4 hears): \
         station 4 is not below 4, the number of stations [a equals b, or either is \u{2265} n]\n"
    );
    let said = converted("explain", &PLAN_A[..11]);
    assert!(said.starts_with(b"refused 2: 11 bytes are no multiple of 6"));
}

#[test]
fn names_are_listed() {
    let lines = b"# station 3 weir  mast\n1 0 1\n#station 0 lock\n";
    assert_eq!(
        converted("names", lines),
        b"# station 0 lock\n# station 3 weir mast\n"
    );
    let said = message(&["names"], b"1 0 1\n# station x lock\n");
    assert_eq!(said, "line 2: not a number: \"x\"\n");
}

#[test]
fn other_words_give_the_usage() {
    for words in [
        [].as_slice(),
        &["to-byte"],
        &["to-bytes", "double"],
        &["explain", "5"],
        &["explain", "5", "x"],
        &["explain", "-1", "5"],
        &["explain", "+1", "5"],
        &["names", "x"],
    ] {
        assert!(message(words, PLAN_A).starts_with("usage:\n"));
    }
}

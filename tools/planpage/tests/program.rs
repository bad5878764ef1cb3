//! The built program: what it writes where, and its exit status.

use std::io::Write;
use std::process::{Command, Output, Stdio};

/// Doubled plan A.
const PLAN_A: &[u8] = include_bytes!("../../../tests/plans/a.plan");

fn planpage(words: &[&str], input: &[u8]) -> Output {
    let mut command = Command::new(env!("CARGO_BIN_EXE_planpage"));
    command.args(words).stdin(Stdio::piped());
    command.stdout(Stdio::piped()).stderr(Stdio::piped());
    let mut child = command.spawn().unwrap();
    // Where the words are wrong the program reads nothing, and the pipe may be closed.
    let _ = child.stdin.take().unwrap().write_all(input);
    child.wait_with_output().unwrap()
}

/// The page, the exit status and the text on standard error.
fn written(words: &[&str], input: &[u8]) -> (String, Option<i32>, String) {
    let output = planpage(words, input);
    let text = |bytes| String::from_utf8(bytes).unwrap();
    (
        text(output.stdout),
        output.status.code(),
        text(output.stderr),
    )
}

#[test]
fn a_page_that_asks_for_nothing_else() {
    let (page, status, said) = written(&[], PLAN_A);
    assert_eq!((status, said.as_str()), (Some(0), ""));
    assert!(page.starts_with("<!DOCTYPE html>") && page.ends_with("</html>\n"));
    assert!(page.contains("5 stations, 4 slots, 12 contacts"));
    let own = page.replace("http://www.w3.org/2000/svg", "");
    for outside in ["http:", "https:", "src=", "href=", "@import", "url("] {
        assert!(!own.contains(outside), "{outside}");
    }
}

#[test]
fn lines_and_bytes_give_one_page() {
    let lines =
        b"1 0 1\n1 0 2\n1 1 0\n1 2 0\n2 1 3\n2 2 3\n2 3 1\n2 3 2\n3 2 3\n3 3 2\n4 3 4\n4 4 3\n";
    for words in [[].as_slice(), &["--older-units"]] {
        let with_lines = [words, &["--lines"]].concat();
        assert_eq!(written(&with_lines, lines), written(words, PLAN_A));
    }
    assert_ne!(written(&[], PLAN_A), written(&["--older-units"], PLAN_A));
}

#[test]
fn names_are_shown_as_text() {
    let lines = b"1 0 1\n# station 0 <script>alert(1)</script>\n# station 1 {{data}}\n";
    let (page, status, _) = written(&["--lines"], lines);
    assert_eq!(status, Some(0));
    assert!(!page.contains("<script>alert") && page.contains("&lt;script&gt;alert"));
    assert!(page.contains("1 {{data}}"));
}

#[test]
fn a_refused_plan_has_a_page_and_a_line() {
    let (page, status, said) = written(&["--lines"], b"1 0 1\n1 0 1\n");
    let line = "refused 5: record not above the one before it: position 1, slot 1, station 0 sends, station 1 hears\n";
    assert_eq!((status, said.as_str()), (Some(1), line));
    assert!(page.contains("This plan is refused") && page.ends_with("</html>\n"));
    let (page, status, said) = written(&[], &PLAN_A[..11]);
    let line = "refused 2: plan not a multiple of 6 bytes, or over 1,024 records: \
                11 bytes, 1 whole record and 5 bytes more\n";
    assert_eq!((status, said.as_str()), (Some(1), line));
    assert!(page.contains("at most 32 stations, 63 slots and 1,024 records"));
}

#[test]
fn lines_that_are_taken_for_bytes_get_a_hint() {
    let (_, status, said) = written(&[], b"1 0 1\n");
    assert_eq!(status, Some(1));
    assert!(said.ends_with(" (is the input lines? they need --lines)\n"));
    assert_eq!(said.matches('\n').count(), 1);
}

#[test]
fn nothing_is_written_where_the_input_cannot_be_read() {
    for (words, input, line) in [
        (
            &["--lines"],
            b"1 0 1\n2 x 1\n".as_slice(),
            "line 2: not a number: \"x\"\n",
        ),
        (
            &["--lines"],
            b"# station 3\n",
            "line 1: no name for station 3\n",
        ),
    ] {
        assert_eq!(
            written(words, input),
            (String::new(), Some(2), line.to_string())
        );
    }
    for words in [["--line"].as_slice(), &["x"], &["--lines", "plan.txt"]] {
        let (page, status, said) = written(words, b"");
        assert_eq!((page.as_str(), status), ("", Some(2)));
        assert!(said.starts_with("usage:\n"));
    }
}

//! Reading the files of cases back.

use std::collections::BTreeSet;
use std::str::FromStr;

use crate::files::{stdout_text, Filed};
use crate::load_program::is_listed;
use crate::means::{Means, COUNTED, LISTED};
use crate::plan::Plan;

/// Cases with what their calls answer and leave.
pub fn with_outcomes<C, O>(cases: Vec<C>, outcome: fn(&C) -> O) -> Vec<(C, O)> {
    let with_outcome = |case: C| {
        let outcome = outcome(&case);
        (case, outcome)
    };
    cases.into_iter().map(with_outcome).collect()
}

/// Asserts that the expected output has a line for each of the first cases.
pub fn assert_stdout<C: Filed + Clone, O>(made: &[(C, O)], line: fn(&C, &O) -> String) {
    let (first, lines): (Vec<C>, Vec<String>) = made[..40]
        .iter()
        .map(|(case, outcome)| (case.clone(), line(case, outcome)))
        .unzip();
    assert_eq!(stdout_text(&first), lines.join("\n") + "\n");
}

/// The largest of each of some lengths.
pub fn longest<const LENGTHS: usize>(
    all: impl Iterator<Item = [usize; LENGTHS]>,
) -> [usize; LENGTHS] {
    let larger = |most: [usize; LENGTHS], lengths: [usize; LENGTHS]| {
        std::array::from_fn(|place| most[place].max(lengths[place]))
    };
    all.fold([0; LENGTHS], larger)
}

/// Takes `length` bytes off the front.
pub fn take<'a>(bytes: &mut &'a [u8], length: usize) -> &'a [u8] {
    let (front, rest) = bytes.split_at(length);
    *bytes = rest;
    front
}

/// Takes a number of `length` bytes off the front, high byte first.
pub fn take_number(bytes: &mut &[u8], length: usize) -> usize {
    let digits = take(bytes, length);
    let next = |number: usize, byte: &u8| 256 * number + usize::from(*byte);
    digits.iter().fold(0, next)
}

/// The number that a text states, 0 where it is no refusal.
pub fn number_of(text: &str) -> u8 {
    match text.strip_prefix("refused ") {
        Some(number) => number.trim_end().parse().unwrap(),
        None => 0,
    }
}

/// Asserts that both means give the text of a plan, if it can be listed; tells whether it can.
pub fn both_print(plan: &Plan, text: &str, by_means: impl Fn(Means) -> String) -> bool {
    let listed = is_listed(plan);
    for means in [LISTED, COUNTED].into_iter().filter(|_| listed) {
        assert_eq!(by_means(means), text, "{}", means.name());
    }
    listed
}

/// What a program prints that reads a head of 16-bit numbers, of which the first two are the lengths of a label and of
/// an input, then these, and prints the label, a colon, a line feed and the text; and the number of cases.
pub fn labelled_texts<const WORDS: usize>(
    stdin: &[u8],
    text: impl Fn([usize; WORDS], &[u8]) -> String,
) -> (usize, String) {
    let mut rest = stdin;
    let (mut read, mut stdout) = (0, String::new());
    while !rest.is_empty() {
        let head = [2; WORDS].map(|length| take_number(&mut rest, length));
        let label = take(&mut rest, head[0]);
        let input = take(&mut rest, head[1]);
        stdout += std::str::from_utf8(label).unwrap();
        stdout += ":\n";
        stdout += &text(head, input);
        read += 1;
    }
    (read, stdout)
}

/// The entries that the runs of a table give; the others are left out.
pub fn entries_of<N: Copy + FromStr>(runs: &str, length: usize, left_out: N) -> Vec<N> {
    let mut entries = vec![left_out; length];
    let mut words = runs.split(' ').skip(1);
    while let Some(word) = words.next() {
        let (from, last) = match word.strip_suffix(':') {
            Some(only) => (only, only),
            None => {
                assert_eq!(words.next(), Some(".."));
                (word, words.next().unwrap().strip_suffix(':').unwrap())
            }
        };
        let value = words.next().unwrap().parse().ok().unwrap();
        let range = from.parse::<usize>().unwrap()..=last.parse::<usize>().unwrap();
        entries[range].fill(value);
    }
    entries
}

/// Asserts that labels are distinct, printable and not too long.
pub fn assert_labels<'a>(labels: impl Iterator<Item = &'a str>, longest: usize) {
    let mut seen = BTreeSet::new();
    for label in labels {
        assert!((1..=longest).contains(&label.len()), "{label}");
        let printable = |byte: u8| (32..127).contains(&byte);
        assert!(label.bytes().all(printable), "{label}");
        assert!(seen.insert(label), "{label}");
    }
}

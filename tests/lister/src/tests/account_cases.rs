//! The files of account-cases.

use std::collections::BTreeSet;
use std::sync::OnceLock;

use super::read_back::{assert_labels, both_print, labelled_texts, number_of, with_outcomes};
use crate::account::{account_text, text_with};
use crate::account_cases::{all_cases, Case, LONGEST_INPUT, LONGEST_LABEL};
use crate::files::{stdin_bytes, stdout_text};
use crate::load_program::{accepted_plan, load_text};

/// All cases and their texts, made once.
fn cases() -> &'static [(Case, String)] {
    static CASES: OnceLock<Vec<(Case, String)>> = OnceLock::new();
    CASES.get_or_init(|| with_outcomes(all_cases(), Case::text))
}

/// The text of the case with a label.
fn text(label: &str) -> &'static str {
    let found = cases().iter().find(|(case, _)| case.label == label);
    &found.unwrap_or_else(|| panic!("no case {label}")).1
}

/// The numbers behind a word in the lines of pairs.
fn numbers_behind(word: &str) -> Vec<u64> {
    let lines = cases().iter().flat_map(|(_, text)| text.lines());
    let behind = |line: &str| {
        let mut words = line.split(' ').skip_while(|other| *other != word);
        words.nth(1).map(|number| number.parse().unwrap())
    };
    let pairs = lines.filter(|line| line.starts_with("from "));
    pairs.filter_map(behind).collect()
}

/// The numbers of digits of some numbers.
fn digits(numbers: &[u64]) -> BTreeSet<usize> {
    let digits = numbers.iter().map(|number| number.to_string().len());
    digits.collect()
}

#[test]
fn stated_numbers_are_those_of_the_texts() {
    let mut seen = [0; 13];
    let mut open = 0;
    for (case, text) in cases() {
        match case.stated {
            Some(stated) => {
                assert_eq!(number_of(text), stated, "{}", case.label);
                seen[usize::from(stated)] += 1;
            }
            None => open += 1,
        }
    }
    for (number, least) in [(0, 700), (1, 20), (2, 25), (3, 10), (4, 8), (5, 4)] {
        assert!(seen[number] >= least, "{seen:?}");
    }
    assert!(seen[6] > 100 && seen[9] == 5 && seen[12] > 30, "{seen:?}");
    assert!(open < 450, "{open}");
}

#[test]
fn texts_by_hand() {
    for (label, expected) in [
        ("plan A, g 1, v 0, k 8", "station 0 pairs 0 load 0\n"),
        (
            "plan A, g 2, v 2, k 1",
            "station 2 pairs 1 load 4294967296\n\
             from 0 to 3 hops 2 through 1 count 1 share 4294967296\n  1 0 2, 3 2 3\n  more 0\n",
        ),
        (
            "three in turn, g 2, v 2, k 3",
            "station 2 pairs 1 load 1431655765\n\
             from 0 to 4 hops 2 through 4 count 12 share 1431655765\n\
             \x20 1 0 2, 6 2 4\n  2 0 2, 6 2 4\n  3 0 2, 6 2 4\n  more 1\n",
        ),
        (
            "two in turn at the second hop, g 1, v 3, k 2",
            "station 3 pairs 2 load 4294967296\n\
             from 0 to 4 hops 3 through 4 count 8 share 2147483648\n\
             \x20 1 0 1, 3 1 3, 6 3 4\n  1 0 1, 3 1 3, 7 3 4\n  more 2\n\
             from 1 to 4 hops 2 through 4 count 8 share 2147483648\n\
             \x20 3 1 3, 6 3 4\n  3 1 3, 7 3 4\n  more 2\n",
        ),
        (
            "ties, the later first, g 1, v 1, k 8",
            "station 1 pairs 1 load 2147483648\n\
             from 0 to 3 hops 2 through 1 count 2 share 2147483648\n  2 0 1, 4 1 3\n  more 0\n",
        ),
        (
            "one hop beside two, g 1, v 1, k 8",
            "station 1 pairs 0 load 0\n",
        ),
        (
            "slot 63, station 31, g 16, v 31, k 8",
            "station 31 pairs 1 load 4294967296\n\
             from 0 to 9 hops 2 through 1 count 1 share 4294967296\n  1 0 31, 63 31 9\n  more 0\n",
        ),
        ("empty input, g 1, v 0, k 8", "station 0 pairs 0 load 0\n"),
        ("empty input, g 2, v 1, k 0", "refused 6\n"),
        ("2 before n 33, g 17, v 65535, k 8", "refused 2\n"),
        ("n 33, g 17, v 65535, k 8", "refused 1\n"),
        ("1 before 3, g 2, v 0, k 8", "refused 1\n"),
        ("3 before 4, g 17, v 65535, k 8", "refused 3\n"),
        ("4 before 5, g 17, v 0, k 8", "refused 4\n"),
        ("P8 a station with itself, g 1, v 0, k 8", "refused 4\n"),
        ("P8 a repeated record, g 1, v 0, k 8", "refused 5\n"),
        ("equal records, g 2, v 65535, k 8", "refused 5\n"),
        ("plan A, g 17, v 5, k 1", "refused 12\n"),
        ("plan A, g 2, v 259, k 8", "refused 6\n"),
        ("counts over 2^64, to 0, g 1, v 0, k 0", "refused 9\n"),
        (
            "counts over 2^64, 627 records, g 1, v 32, k 8",
            "refused 6\n",
        ),
    ] {
        assert_eq!(text(label), expected, "{label}");
    }
}

/// A number above the walks shows them all; 8 of 9 leave one more.
#[test]
fn numbers_around_the_walks() {
    for (walks, number, more) in [
        (1, 8, 0),
        (7, 6, 1),
        (7, 7, 0),
        (8, 8, 0),
        (9, 8, 1),
        (9, 0, 9),
    ] {
        let text = text(&format!("{walks} of each, g 2, v 1, k {number}"));
        let shown = text.lines().filter(|line| line.ends_with(" 1 3"));
        assert_eq!(shown.count(), walks.min(number), "{walks} {number}");
        assert!(text.ends_with(&format!("  more {more}\n")), "{text}");
    }
}

/// Counts, through counts and what is left of 20 digits; shares of 1 to 10 digits with 0 among them.
#[test]
fn numbers_have_many_digits() {
    for word in ["count", "through"] {
        let digits = digits(&numbers_behind(word));
        assert!([1, 2, 5, 10, 15, 19, 20]
            .iter()
            .all(|length| digits.contains(length)));
    }
    let lines = cases().iter().flat_map(|(_, text)| text.lines());
    let left = lines.filter_map(|line| line.strip_prefix("  more "));
    assert!(left.map(str::len).any(|length| length == 20));
    let shares = numbers_behind("share");
    assert!(shares.contains(&0) && shares.contains(&(1 << 32)));
    assert!([1, 3, 9, 10]
        .iter()
        .all(|length| digits(&shares).contains(length)));
    let hops: BTreeSet<u64> = numbers_behind("hops").into_iter().collect();
    assert!((2..=31).all(|length| hops.contains(&length)), "{hops:?}");
}

/// Of large counts the first walk shown is far behind the first of the complete list.
#[test]
fn large_counts_by_hand() {
    let text = text("counts above 2^63, one way, g 1, v 2, k 8");
    let line = "from 0 to 31 hops 23 through 6237775698000436352 count 12475551396000872704 \
                share 2147483648\n  1 0 2, 2 2 3, ";
    assert!(text.contains(line));
    assert!(text.ends_with("  more 6237775698000436344\n"));
}

#[test]
fn every_call_has_cases() {
    let seen = |of: fn(&Case) -> u16| -> BTreeSet<u16> {
        let accepted = cases().iter().filter(|(_, text)| number_of(text) == 0);
        accepted.map(|(case, _)| of(case)).collect()
    };
    assert_eq!(seen(|case| case.number), (0..=8).collect());
    let turnarounds = seen(|case| case.turnaround);
    assert!([1, 2, 3, 16].iter().all(|one| turnarounds.contains(one)));
    let stations = seen(|case| case.station);
    assert!([0, 1, 5, 15, 16, 30, 31]
        .iter()
        .all(|one| stations.contains(one)));
    for number in 0..=8 {
        let drawn = cases().iter().filter(|(case, text)| {
            case.label.contains(", seed ") && case.number == number && text.lines().count() > 1
        });
        assert!(drawn.count() > 5, "{number}");
    }
}

#[test]
fn labels_and_lengths() {
    assert_labels(
        cases().iter().map(|(case, _)| case.label.as_str()),
        LONGEST_LABEL,
    );
    let lengths: BTreeSet<usize> = cases().iter().map(|(case, _)| case.bytes.len()).collect();
    assert!(lengths.iter().all(|length| *length <= LONGEST_INPUT));
    assert!([0, 1, 6, 71, 73, 6_144, 6_150]
        .iter()
        .all(|length| lengths.contains(length)));
    let limits = |(case, text): &&(Case, String)| {
        let loads = load_text(case.turnaround.into(), &case.bytes);
        loads.starts_with("stations 32 slots 63 contacts 1024\n") && text.len() > 5_000
    };
    let large = cases().iter().filter(|(case, _)| case.bytes.len() == 6_144);
    assert!(large.filter(limits).count() >= 3);
    let longest = cases().iter().map(|(_, text)| text.len()).max();
    assert!(longest > Some(500_000), "{longest:?}");
}

/// Every case of a plan that can be listed has the same text by both means.
#[test]
fn listed_and_counted_cases() {
    let mut seen = [0; 2];
    for (case, text) in cases() {
        let Ok(plan) = accepted_plan(case.turnaround.into(), &case.bytes) else {
            continue;
        };
        let listed = both_print(&plan, text, |means| {
            let account = means.account(&plan, case.station.into());
            text_with(&account, case.number.into())
        });
        seen[usize::from(listed)] += 1;
    }
    let [counted, listed] = seen;
    assert!(listed > 900 && counted > 40, "{listed} {counted}");
}

#[test]
fn stdin_read_back_gives_stdout() {
    let all = all_cases();
    let stdin = stdin_bytes(&all);
    assert!(stdin.len() < 320_000, "{}", stdin.len());
    let text = |[_, _, turnaround, station, number]: [usize; 5], input: &[u8]| {
        account_text(turnaround, input, station, number)
    };
    let read = labelled_texts(&stdin, text);
    assert!(read.1.len() < 1_500_000, "{}", read.1.len());
    assert!(read == (all.len(), stdout_text(&all)));
}

#[test]
fn cases_are_the_same_each_time() {
    assert!(all_cases().iter().eq(cases().iter().map(|case| &case.0)));
}

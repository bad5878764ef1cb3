//! The files of reach-cases.

use std::collections::BTreeSet;
use std::sync::OnceLock;

use super::read_back::{assert_labels, entries_of, take, take_number};
use crate::answer::number;
use crate::files::{stdin_bytes, stdout_text};
use crate::means::Counting;
use crate::plan::PlanInput;
use crate::reach::Tables;
use crate::reach_cases::{
    all_cases, Case, Operation, Outcome, LONGEST_LABEL, LONGEST_PLAN, LONGEST_TABLES,
};
use crate::row::{row, row_number};

/// All cases, made once.
fn cases() -> &'static [Case] {
    static CASES: OnceLock<Vec<Case>> = OnceLock::new();
    CASES.get_or_init(all_cases)
}

#[test]
fn stated_numbers_are_those_of_the_lister() {
    let mut reached = [0; 15];
    let mut rows = [0; 15];
    for case in cases().iter().filter(|case| case.stated.is_some()) {
        let number = case.outcome().number();
        assert_eq!(Some(number), case.stated, "{}", case.label);
        match case.operation {
            Operation::Reach(_) => reached[usize::from(number)] += 1,
            Operation::Row(_) => rows[usize::from(number)] += 1,
        }
    }
    for number in [0, 1, 2, 3, 4, 5, 6, 8, 9, 12, 14] {
        assert!(reached[number] > 4, "{number}: {reached:?}");
    }
    for number in [0, 1, 6, 8] {
        assert!(rows[number] > 4, "{number}: {rows:?}");
    }
}

#[test]
fn labels_are_short_printable_and_distinct() {
    let labels = cases().iter().map(|case| case.label.as_str());
    assert_labels(labels, LONGEST_LABEL);
}

/// The line of the case with a label.
fn line_of(label: &str) -> String {
    let case = cases().iter().find(|case| case.label == label);
    case.map(Case::line).unwrap_or_default()
}

#[test]
fn lines_by_hand() {
    for line in [
        "P1 empty plan, n 1, T 1: 0 | 0: 0 | 0: 1 | 0: 0 | 0: 1",
        "P2 plan A from 0: 0 | 0: 0 6: 1 11: 1 13: 3 17 .. 18: 2 24: 3 \
         | 0: 1 6: 1 11: 1 13: 2 17: 2 18: 1 24: 3 \
         | 0: 0 1 .. 2: 1 3: 2 4: 3 | 0 .. 2: 1 3 .. 4: 3",
        "plan A from 4: 0 | 19: 1 20: 0 | 19 .. 20: 1 | 3: 1 4: 0 | 3 .. 4: 1",
        "8 for one entry less of counts: 8 | 0 .. 24: 999 | 0 .. 23: 999 | 0 .. 4: 999 | 0 .. 4: 999",
        "8 for empty tables: 8 | | | |",
        "ladder of 65 layers: 9 | 0 .. 8645: 0 | | 0 .. 130: 0 |",
        "ladder of 65 layers, longer tables: 9 | 0 .. 8645: 0 8646 .. 8654: 4321 \
         | 8646 .. 8653: 4321 | 0 .. 130: 0 131 .. 137: 4321 | 131 .. 136: 4321",
        "row 2 of n 5, T 4, 26 entries: 0 5 | 0: 31 1: 34 2: 37 3: 40 4: 43",
        "plan A, g 2, from 0: 0 | 0: 0 6: 1 11: 1 18: 2 | 0: 1 6: 1 11: 1 18: 1 \
         | 0: 0 1 .. 2: 1 3: 2 | 0 .. 3: 1",
        "12 for plan A, g 17: 12 | 0 .. 26: 999 | 0 .. 25: 999 | 0 .. 7: 999 | 0 .. 6: 999",
        "back at the source and on, g 2, from 0: 0 | 0: 0 3: 2 7: 1 16 .. 17: 1 \
         | 0: 1 3: 1 7: 1 16 .. 17: 1 | 0: 0 1 .. 2: 1 | 0 .. 1: 1 2: 2",
        "row 5 of n 5, T 4, 24 entries: 6 0 |",
        "twice at 1, no path, g 1, h 1, from 0: 0 | 0: 0 6: 1 8: 3 12: 2 19: 4 \
         | 0: 1 6: 1 8: 1 12: 1 19: 1 | 0: 0 1: 1 2: 2 3: 4 | 0 .. 3: 1",
        "14 for plan A, g 1, h 0, from 0: 14 | 0 .. 26: 999 | 0 .. 25: 999 | 0 .. 7: 999 | 0 .. 6: 999",
        "ladder with a gap, g 1, h 2, from 0: 9 | 0 .. 8776: 0 8777: 4321 | 8777 .. 8778: 4321 \
         | 0 .. 130: 0 131 .. 133: 4321 | 131 .. 134: 4321",
    ] {
        let (label, _) = line.split_once(" | ").or(line.split_once(" |")).unwrap();
        let (label, _) = label.split_once(": ").unwrap();
        assert_eq!(line_of(label), line);
    }
    let last = line_of("ladder of 64 layers");
    assert!(last.ends_with(" 127 .. 128: 9223372036854775808"), "{last}");
    let below = line_of("2^64-1 in one slot");
    assert!(below.ends_with(": 18446744073709551615"), "{below}");
}

/// Calls what a case of standard input names; the tables as the line gives them.
fn assert_line(stdin: &mut &[u8], line: &str, counting: Counting) {
    let [kind, stations, slots, turnaround, keeping, station] =
        [2; 6].map(|length| take_number(stdin, length));
    let [plan, label, mark] = [2; 3].map(|length| take_number(stdin, length));
    let lengths = [4; 4].map(|length| take_number(stdin, length));
    assert!((0..4).all(|table| lengths[table] <= LONGEST_TABLES[table]));
    let label = std::str::from_utf8(take(stdin, label)).unwrap();
    let bytes = take(stdin, plan);
    let input = PlanInput {
        bytes,
        stations,
        slots,
        turnaround,
        keeping,
    };
    let rest = line
        .strip_prefix(label)
        .unwrap()
        .strip_prefix(": ")
        .unwrap();
    let parts: Vec<&str> = rest.split(" |").collect();
    if kind == 1 {
        let mut table: Vec<u64> = (0..lengths[1]).map(|at| 3 * at as u64 + 1).collect();
        let number = row_number(stations, slots, station, &table);
        let part = row(stations, slots, station, &mut table);
        assert_eq!(parts[0], format!("{number} {}", part.len()));
        assert_eq!(entries_of(parts[1], part.len(), 0), part);
        return;
    }
    let hops = |runs: &str, length: usize| -> Vec<u16> {
        let entries = entries_of(runs, length, 65535);
        entries.iter().map(|entry| *entry as u16).collect()
    };
    let written = Tables {
        appearance_hops: hops(parts[1], lengths[0]),
        appearance_counts: entries_of(parts[2], lengths[1], 0),
        station_hops: hops(parts[3], lengths[2]),
        station_counts: entries_of(parts[4], lengths[3], 0),
    };
    let mut tables = Tables::marked(lengths, mark as u16);
    let answer = counting.means().reach(input, station, tables.lend());
    assert_eq!(parts[0], number(&answer).to_string(), "{label}");
    assert_eq!(written, tables, "{label}");
}

#[test]
fn stdin_read_back_gives_stdout() {
    let cases = cases();
    let (stdin, stdout) = (stdin_bytes(cases), stdout_text(cases));
    assert!(stdin.len() < 740_000 && stdout.len() < 460_000);
    let mut rest = stdin.as_slice();
    for (case, line) in cases.iter().zip(stdout.lines()) {
        assert_line(&mut rest, line, case.counting);
    }
    assert!(rest.is_empty());
    assert_eq!(stdout.lines().count(), cases.len());
}

#[test]
fn cases_fit_the_program() {
    let cases = cases();
    let mut longest = [0; 4];
    for case in cases {
        assert!(case.bytes.len() <= LONGEST_PLAN, "{}", case.label);
        for (most, length) in longest.iter_mut().zip(case.lengths) {
            *most = length.max(*most);
        }
    }
    assert!((0..4).all(|table| longest[table] <= LONGEST_TABLES[table]));
    assert!(longest[0] >= 65_600 && longest[1] >= 65_599, "{longest:?}");
    let records = |count: usize| {
        cases
            .iter()
            .filter(move |case| case.bytes.len() == 6 * count)
    };
    assert!(records(8192).count() > 3 && records(8193).count() > 0);
}

#[test]
fn walks_are_counted_for_ladders_alone() {
    let words = [
        "ladder of",
        "before 9",
        "2^6",
        "3^4",
        "15^16",
        "every slot, g 16",
        "ladder with",
    ];
    let mut listed = 0;
    for case in cases() {
        let is_ladder = words.iter().any(|word| case.label.contains(word));
        assert_eq!(case.counting == Counting::Fast, is_ladder, "{}", case.label);
        listed += usize::from(case.counting == Counting::Listed);
    }
    assert!(listed > 1000, "{listed}");
}

#[test]
fn listed_cases_are_counted_alike() {
    let listed = |case: &&Case| case.counting == Counting::Listed;
    for case in cases().iter().filter(listed) {
        let counted = Case {
            counting: Counting::Fast,
            ..case.clone()
        };
        assert_eq!(counted.outcome(), case.outcome(), "{}", case.label);
    }
}

#[test]
fn small_plans_vary() {
    let small = cases()
        .iter()
        .filter(|case| case.label.starts_with("small "));
    let small: Vec<&Case> = small.collect();
    assert_eq!(small.len(), 240);
    let refused = small
        .iter()
        .filter(|case| case.outcome().number() == 8)
        .count();
    assert!((5..60).contains(&refused), "{refused}");
    let marks: BTreeSet<u16> = small.iter().map(|case| case.mark).collect();
    assert!(marks.len() > 200);
    let largest = |case: &&Case| match case.outcome() {
        Outcome::Reached(_, tables) => tables.station_counts.into_iter().max(),
        Outcome::Part(..) => None,
    };
    let several = small.iter().copied().filter(|case| largest(case) > Some(1));
    assert!(several.count() > 30);
}

#[test]
fn files_are_the_same_each_time() {
    assert_eq!(all_cases(), cases());
}

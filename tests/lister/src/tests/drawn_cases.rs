//! The files of drawn-cases.

use std::collections::BTreeMap;
use std::sync::OnceLock;

use super::call_files;
use super::read_back::{assert_labels, assert_stdout, entries_of, longest, with_outcomes};
use crate::drawing::{Figures, DRAWN_BYTES};
use crate::drawn_cases::{
    all_cases, named_lengths, Case, Outcome, LONGEST_LABEL, LONGEST_TABLES, RECORDS, UNSHARED,
};
use crate::files::Filed;
use crate::reach_cases::LONGEST_PLAN;

/// All cases with their outcomes, made once.
fn cases() -> &'static [(Case, Outcome)] {
    static CASES: OnceLock<Vec<(Case, Outcome)>> = OnceLock::new();
    CASES.get_or_init(|| with_outcomes(all_cases(), Case::outcome))
}

/// The case with a label, and its outcome.
fn labelled(label: &str) -> &'static (Case, Outcome) {
    let found = cases().iter().find(|(case, _)| case.label == label);
    found.unwrap_or_else(|| panic!("no case {label}"))
}

#[test]
fn stated_numbers_are_those_of_the_lister() {
    let mut seen = BTreeMap::new();
    for (case, outcome) in cases() {
        let generated = ["small ", "generated ", "mixed ladder", "drawn "];
        let is_generated = generated.iter().any(|word| case.label.starts_with(word));
        assert_eq!(case.stated.is_none(), is_generated, "{}", case.label);
        if let Some(stated) = case.stated {
            assert_eq!(outcome.number, stated, "{}", case.label);
            *seen.entry(stated).or_insert(0) += 1;
        }
    }
    let numbers: Vec<u8> = seen.keys().copied().collect();
    assert_eq!(numbers, [0, 1, 2, 3, 4, 5, 8, 9, 12, 14]);
    assert!(seen.values().all(|times| *times > 20), "{seen:?}");
}

#[test]
fn labels_are_short_printable_and_distinct() {
    let labels = cases().iter().map(|(case, _)| case.label.as_str());
    assert_labels(labels, LONGEST_LABEL);
}

#[test]
fn lines_by_hand() {
    let tables = "1 .. 2: 2 3: 4 P | 1: 2863311530 2: 5726623060 3: 17179869184 L";
    let of_one = "19: 1 20: 63 21: 229 22 .. 24: 85 25: 64 28: 63 29: 229 30 .. 32: 85 33: 128";
    let of_two = "37: 2 38: 63 39: 245 40 .. 42: 85 43: 64 46: 63 47: 245 48 .. 50: 85 51: 96";
    let of_three = "55: 3 56: 64 57: 16 64: 64 65: 16 69: 16 73: 4";
    let records = [of_one, of_two, of_three].join(" ");
    let plan_a = |marks: [&str; 4]| {
        let [pairs, loads, bytes, scratch] = marks;
        let tables = tables.replace(" P", pairs).replace(" L", loads);
        format!("0 | {tables} | {records}{bytes} |{scratch}")
    };
    let refused = "0 .. 4: 999 | 0 .. 4: 999";
    for (label, rest) in [
        (
            "P9 plan A, g 1, h 255, drawn",
            &*plan_a([
                " 5 .. 6: 999",
                " 5: 999",
                " 90 .. 93: 231",
                " 100 .. 102: 999",
            ]),
        ),
        (
            "P9 plan A, exactly long enough, g 1, h 255, drawn",
            &plan_a([""; 4]),
        ),
        (
            "P9 plan A, low byte 0, g 1, h 255, drawn",
            &plan_a([" 5 .. 6: 768", " 5: 768", "", " 100 .. 102: 768"]),
        ),
        (
            "8 for one entry less of records, g 1, h 255, drawn",
            "8 | 0 .. 4: 502 | 0 .. 4: 502 | 0 .. 88: 246 | 0 .. 99: 502",
        ),
        (
            "14 for short [2], g 1, h 0, drawn",
            &format!("14 | {refused} | 0 .. 88: 231 | 0 .. 99: 999"),
        ),
        (
            "12 for short [2, 3], g 17, h 255, drawn",
            &format!("12 | {refused} | 0 .. 88: 231 | 0 .. 98: 999"),
        ),
        (
            "ladder of 65 layers, longer, drawn",
            "9 | 131 .. 137: 4321 | 131 .. 136: 4321 | 2358 .. 2364: 225 | 34584 .. 34591: 4321",
        ),
        ("empty plan, n 1, T 1, drawn", "0 | | | |"),
        (
            "empty plan, n 3, T 1, longer, drawn",
            "0 | 3 .. 4: 999 | 3: 999 | 19: 1 37: 2 54 .. 57: 231 | 24 .. 26: 999",
        ),
    ] {
        let (case, outcome) = labelled(label);
        assert_eq!(case.line(outcome), format!("{label}: {rest}"));
    }
}

#[test]
fn stdin_read_back_gives_the_cases() {
    call_files::assert_stdin(cases(), |case| case.lengths.to_vec());
    let bytes: usize = cases().iter().map(|(case, _)| case.stdin().len()).sum();
    assert!(bytes < 1_200_000, "{bytes}");
}

/// A head of 30 bytes: the plan's and the label's lengths at 8 and 10, the mark at 12, the lent bytes of records at 22.
#[test]
fn the_head_has_30_bytes() {
    for (case, _) in cases() {
        let stdin = case.stdin();
        let word = |at: usize| usize::from(stdin[at]) * 256 + usize::from(stdin[at + 1]);
        assert_eq!(stdin.len(), 30 + word(8) + word(10), "{}", case.label);
        assert_eq!(word(12), case.mark.into());
        assert_eq!(word(22) * 65536 + word(24), case.lengths[RECORDS]);
    }
}

#[test]
fn lines_read_back_give_the_outcomes() {
    let mut length = 0;
    for (case, outcome) in cases() {
        let line = case.line(outcome);
        length += line.len() + 1;
        let rest = line.strip_prefix(&case.label).unwrap();
        let [number, pairs, loads, records, scratch] = rest.split(" |").collect::<Vec<_>>()[..]
        else {
            panic!("{line}");
        };
        assert_eq!(number, format!(": {}", outcome.number), "{line}");
        let read = Outcome {
            number: outcome.number,
            pairs: entries_of(pairs, case.lengths[0], 0),
            loads: entries_of(loads, case.lengths[1], 0),
            records: entries_of(records, case.lengths[2], 0),
            scratch: entries_of(scratch, case.lengths[3], 0),
        };
        assert_eq!(read, *outcome, "{line}");
    }
    assert!(length < 900_000, "{length}");
}

#[test]
fn stdout_has_a_line_a_case() {
    assert_stdout(cases(), Case::line);
}

#[test]
fn cases_fit_the_program() {
    let lengths = |(case, _): &(Case, _)| {
        let [pairs, loads, records, scratch] = case.lengths;
        [pairs, loads, records, scratch, case.bytes.len()]
    };
    let [pairs, loads, records, scratch, plan] = longest(cases().iter().map(lengths));
    assert_eq!([pairs, loads, records, scratch], LONGEST_TABLES);
    assert!(plan <= LONGEST_PLAN, "{plan}");
    let full = |records: usize| {
        let has = |(case, _): &&(Case, _)| case.bytes.len() == 6 * records;
        cases().iter().filter(has).count()
    };
    assert!(full(8192) > 2 && full(8193) > 0);
}

/// What each number leaves: 9 clears the named parts, every other refusal nothing; what stands behind stays.
#[test]
fn refused_calls_and_parts_behind_keep_the_marks() {
    for (case, outcome) in cases() {
        let named = match outcome.number {
            0 | 9 => named_lengths(case.stations.into(), case.slots.into()),
            _ => [0; 4],
        };
        let marked = |entry: &u64| *entry == u64::from(case.mark);
        let is_low = |byte: &u8| *byte == case.mark as u8;
        assert!(outcome.pairs[named[0]..].iter().all(marked));
        assert!(outcome.loads[named[1]..].iter().all(marked));
        assert!(outcome.records[named[2]..].iter().all(is_low));
        assert!(outcome.scratch[named[3]..].iter().all(marked));
        assert!(outcome.scratch[..named[3]].iter().all(|entry| *entry == 0));
        if outcome.number == 9 {
            let tables = [&outcome.pairs[..named[0]], &outcome.loads[..named[1]]];
            assert!(tables.concat().iter().all(|entry| *entry == 0));
            assert!(outcome.records[..named[2]].iter().all(|byte| *byte == 0));
        }
    }
}

/// Every record of an accepted call, read back, has the station's entries of the two tables.
#[test]
fn records_read_back_have_the_entries_of_the_tables() {
    let mut seen = [0; 3];
    for (case, outcome) in cases().iter().filter(|(_, outcome)| outcome.number == 0) {
        for station in 0..usize::from(case.stations) {
            let record = &outcome.records[DRAWN_BYTES * station..][..DRAWN_BYTES];
            let figures = Figures {
                station: station as u16,
                load: outcome.loads[station],
                pairs: outcome.pairs[station],
            };
            assert_eq!(Figures::read(record), Some(figures), "{}", case.label);
            let kind = usize::from(figures.pairs > 0) + usize::from(figures.load > 0);
            seen[kind] += 1;
        }
    }
    assert!(seen[0] > 1000 && seen[1] == 1 && seen[2] > 1000, "{seen:?}");
    let (_, outcome) = labelled("one of 2^32 + 1 walks, drawn");
    assert_eq!((outcome.pairs[UNSHARED], outcome.loads[UNSHARED]), (1, 0));
}

#[test]
fn listed_cases_are_counted_alike() {
    let compared = call_files::assert_counted_alike(cases(), Case::outcome);
    assert!(compared > 1000, "{compared}");
}

#[test]
fn files_are_the_same_each_time() {
    let again = all_cases();
    assert!(cases().iter().map(|(case, _)| case).eq(again.iter()));
}

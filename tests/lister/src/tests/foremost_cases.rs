//! The files of foremost-cases.

use std::sync::OnceLock;

use super::call_files::{self, Made};
use super::read_back::assert_labels;
use crate::foremost_cases::{all_cases, ARRIVALS};
use crate::pair_cases::{Case, Operation, LONGEST_LABEL, LONGEST_TABLES};
use crate::plan::{read, Ends};
use crate::walk::walks_from;

/// All cases with their outcomes, made once.
fn cases() -> &'static Made {
    static CASES: OnceLock<Made> = OnceLock::new();
    CASES.get_or_init(|| call_files::made(all_cases()))
}

/// The ends of a case.
fn ends(case: &Case) -> Ends {
    let Operation::Foremost(source, destination) = case.operation else {
        panic!("{}", case.label);
    };
    (source.into(), destination.into())
}

#[test]
fn stated_numbers_are_those_of_the_lister() {
    let seen = call_files::assert_stated(cases()).into_iter();
    for (number, seen) in seen.enumerate() {
        assert_eq!(
            seen > 4,
            ![10, 11, 13, 14].contains(&number),
            "{number}: {seen}"
        );
    }
}

#[test]
fn hand_made_cases_state_their_numbers() {
    call_files::assert_hand_made_are_stated(cases());
}

#[test]
fn labels_are_short_printable_and_distinct() {
    let labels = cases().iter().map(|(case, _)| case.label.as_str());
    assert_labels(labels, LONGEST_LABEL);
}

#[test]
fn lines_by_hand() {
    let lines = [
        ("plan A, 0 to 3", "0 2 2 2 | 1 .. 2: 1 |"),
        ("plan A, 0 to 4", "0 4 3 3 | 1: 1 2: 2 3: 3 |"),
        ("plan A, 2 to 1", "0 65535 65535 0 | |"),
        (
            "plan A, longer, 0 to 3",
            "0 2 2 2 | 1 .. 2: 1 5 .. 6: 999 | 100 .. 102: 999",
        ),
        (
            "plan A, longer, 2 to 1",
            "0 65535 65535 0 | 5 .. 6: 999 | 100 .. 102: 999",
        ),
        (
            "row of 255 and a contact of its ends, 0 to 254",
            "0 254 254 1 | 1 .. 253: 1 |",
        ),
        (
            "6 for stations of plan A, 5 to 5",
            "6 0 0 0 | 0 .. 6: 999 | 0 .. 100: 999",
        ),
        (
            "7 for stations of plan A, 3 to 3",
            "7 0 0 0 | 0 .. 5: 999 | 0 .. 101: 999",
        ),
        (
            "8 for one entry less of scratch, 0 to 4",
            "8 0 0 0 | 0 .. 4: 502 | 0 .. 98: 502",
        ),
        (
            "ladder of 64 layers, 0 to 128",
            "0 64 64 9223372036854775808 | 1 .. 126: 4611686018427387904 |",
        ),
        ("ladder of 65 layers, 0 to 130", "9 0 0 0 | |"),
        ("ladder of 65 layers, 0 to 1", "9 0 0 0 | |"),
        (
            "2^64 at a station, half in each of two slots, 0 to 129",
            "0 65 65 9223372036854775808 | 1 .. 126: 4611686018427387904 127: 9223372036854775808 \
             130 .. 132: 999 | 34840 .. 34841: 999",
        ),
        (
            "2^64 at an appearance alone, 0 to 129",
            "9 0 0 0 | 130 .. 132: 999 | 34320 .. 34321: 999",
        ),
        (
            "arrival, 2^63 then, one hop later, 0 to 129",
            "0 65 65 9223372036854775808 | 1 .. 126: 4611686018427387904 127: 9223372036854775808 \
             130 .. 132: 999 | 34840 .. 34841: 999",
        ),
        (
            "arrival, one hop then, 2^64 later, 0 to 1",
            "9 0 0 0 | 130 .. 132: 999 | 34840 .. 34841: 999",
        ),
        ("plan A, g 2, 0 to 3", "0 3 2 1 | 2: 1 |"),
        ("plan A, g 2, 0 to 4", "0 65535 65535 0 | |"),
        (
            "the shorter path waits longer, g 2, 0 to 3",
            "0 5 3 1 | 1 .. 2: 1 |",
        ),
        (
            "12 for plan A, g 0, 0 to 4",
            "12 0 0 0 | 0 .. 6: 999 | 0 .. 102: 999",
        ),
    ];
    call_files::assert_lines(cases(), &lines);
}

#[test]
fn stdin_read_back_gives_the_cases() {
    call_files::assert_stdin(cases(), |case| vec![case.lengths[0], case.lengths[2]]);
}

#[test]
fn lines_read_back_give_the_outcomes() {
    let length = call_files::assert_read_back(cases());
    assert!(length < 500_000, "{length}");
}

#[test]
fn stdout_has_a_line_a_case() {
    call_files::assert_stdout(cases());
}

#[test]
fn cases_fit_the_program() {
    let longest = call_files::longest_tables(cases());
    assert_eq!(longest, [LONGEST_TABLES[0], LONGEST_TABLES[2]]);
}

#[test]
fn listed_cases_are_counted_alike() {
    let compared = call_files::assert_counted_alike(cases(), Case::outcome);
    assert!(compared > 5000, "{compared}");
}

#[test]
fn arrivals_have_the_values_stated() {
    for arrival in ARRIVALS {
        let last = arrival.sizes.0 - 1;
        let label = format!("{}, 0 to {last}", arrival.label);
        let (_, outcome) = call_files::labelled(cases(), &label);
        let values = arrival.values;
        let values = [values.slot.into(), values.hops.into(), values.count];
        assert_eq!(outcome.values, values, "{label}");
        let mut through = vec![0; arrival.sizes.0.into()];
        for (station, count) in arrival.through {
            through[*station] = *count;
        }
        assert_eq!(outcome.buffers[0], through, "{label}");
    }
}

/// Foremost and pair of the same call: how often the earliest path has more hops, how often there are
/// fewer paths, and how often pair alone is refused.
#[test]
fn cases_tell_foremost_from_pair() {
    let mut seen = [0; 4];
    for (case, outcome) in cases() {
        let (source, destination) = ends(case);
        let pair = Case {
            operation: Operation::Pair(source as u16, destination as u16),
            ..case.clone()
        };
        let pair = pair.outcome();
        match (outcome.number, pair.number) {
            (0, 0) => {
                let [slot, hops, count] = outcome.values[..] else {
                    panic!("{}", case.label);
                };
                assert!(pair.values[0] <= hops, "{}", case.label);
                assert_eq!(count == 0, slot == 65535, "{}", case.label);
                seen[0] += usize::from(pair.values[0] < hops);
                seen[1] += usize::from(pair.values[0] == hops && count < pair.values[1]);
                seen[2] += usize::from(pair.values == [hops, count] && count > 0);
            }
            (0, 9) => seen[3] += 1,
            (number, of_pair) => assert_eq!(number, of_pair, "{}", case.label),
        }
    }
    assert!(seen[..3].iter().all(|count| *count > 100), "{seen:?}");
    assert!(seen[3] > 10, "{seen:?}");
}

/// In how many cases a walk with more hops arrives in the earliest slot too.
#[test]
fn earliest_slots_have_walks_of_several_hops() {
    let mut several = 0;
    for (case, outcome) in cases() {
        if outcome.number != 0 || outcome.values[2] == 0 || case.stations > 6 {
            continue;
        }
        let plan = read(case.input()).unwrap();
        let (source, destination) = ends(case);
        let walks = walks_from(&plan, source);
        let [slot, hops, _] = outcome.values[..] else {
            panic!("{}", case.label);
        };
        let then = walks.iter().filter(|walk| {
            walk.end() == destination && walk.slot as u64 == slot && walk.hops() as u64 > hops
        });
        several += usize::from(then.count() > 0);
    }
    assert!(several > 100, "{several}");
}

#[test]
fn files_are_the_same_each_time() {
    call_files::assert_same_each_time(cases(), all_cases());
}

//! The files of pair-cases.

use std::collections::BTreeMap;
use std::sync::OnceLock;

use super::call_files::{self, Made};
use super::read_back::assert_labels;
use crate::call_cases::Called;
use crate::means::Counting;
use crate::pair_cases::{
    all_cases, mixed_ladders, Case, Operation, Outcome, BLOCKS, LONGEST_LABEL, LONGEST_TABLES,
    TIED_PLANS, TURNED_BLOCKS,
};
use crate::reach_cases::LONGEST_PLAN;
use crate::stale::STALE_BLOCKS;

/// All cases with their outcomes, made once.
fn cases() -> &'static Made {
    static CASES: OnceLock<Made> = OnceLock::new();
    CASES.get_or_init(|| call_files::made(all_cases()))
}

/// The case with a label, and its outcome.
fn labelled(label: &str) -> &'static (Case, Outcome) {
    call_files::labelled(cases(), label)
}

/// The place of an operation in the kinds of the program.
fn kind(operation: Operation) -> usize {
    operation.kind().expect("a kind").into()
}

#[test]
fn stated_numbers_are_those_of_the_lister() {
    let mut seen = [[0; 15]; 3];
    for (case, outcome) in cases() {
        if let Some(stated) = case.stated {
            assert_eq!(outcome.number, stated, "{}", case.label);
            seen[kind(case.operation)][usize::from(stated)] += 1;
        }
    }
    for number in (0..10).chain([12, 14]) {
        assert!(seen[0][number] > 4, "{number}: {seen:?}");
    }
    for seen in &seen[1..] {
        for number in [0, 1, 2, 3, 4, 5, 8, 12, 14] {
            assert!(seen[number] > 4, "{number}: {seen:?}");
        }
        assert!(seen[9] > 1 && seen[6] == 0 && seen[7] == 0, "{seen:?}");
    }
}

#[test]
fn hand_made_cases_state_their_numbers() {
    call_files::assert_hand_made_are_stated(cases());
}

#[test]
fn labels_are_short_printable_and_distinct() {
    let labels = cases().iter().map(|(case, _)| case.label.as_str());
    assert_labels(labels, LONGEST_LABEL);
}

#[test]
fn lines_by_hand() {
    let lines = [
        ("P5 plan A, 0 to 4", "0 3 3 | 1: 1 2: 2 3: 3 |"),
        (
            "P5 plan A, longer, 0 to 4",
            "0 3 3 | 1: 1 2: 2 3: 3 5 .. 6: 999 | 100 .. 102: 999",
        ),
        ("P6 plan A, 2 to 1", "0 65535 0 | |"),
        (
            "P9 plan A, loads",
            "0 | 1 .. 2: 2 3: 4 | 1: 2863311530 2: 5726623060 3: 17179869184 |",
        ),
        ("plan A, busiest", "0 3 |"),
        ("P10 two contacts in slot 1, 0 to 2", "0 65535 0 | |"),
        ("empty plan, n 1, T 1, busiest", "0 0 |"),
        (
            "two equal, 2 and 4, and 1 but for rounding, loads",
            "0 | 0: 1 1: 2 2 .. 4: 1 | 0: 1431655765 1: 4294967295 2: 4294967296 3: 2863311530 \
             4: 4294967296 |",
        ),
        (
            "two equal, 2 and 4, and 1 but for rounding, busiest",
            "0 2 |",
        ),
        ("n 256, T 255, row, busiest", "0 127 |"),
        (
            "6 for stations of plan A, 5 to 5",
            "6 0 0 | 0 .. 6: 999 | 0 .. 100: 999",
        ),
        (
            "7 for stations of plan A, 3 to 3",
            "7 0 0 | 0 .. 5: 999 | 0 .. 101: 999",
        ),
        (
            "8 for one entry less of scratch, busiest",
            "8 0 | 0 .. 98: 502",
        ),
        (
            "8 for one entry less of second table, loads",
            "8 | 0 .. 4: 501 | 0 .. 3: 501 | 0 .. 99: 501",
        ),
        (
            "ladder of 64 layers, 0 to 128",
            "0 64 9223372036854775808 | 1 .. 126: 4611686018427387904 |",
        ),
        ("ladder of 65 layers, 0 to 130", "9 0 0 | |"),
        (
            "ladder of 65 layers, longer, loads",
            "9 | 131 .. 137: 4321 | 131 .. 136: 4321 | 34584 .. 34591: 4321",
        ),
        (
            "ladder of 65 layers, longer, busiest",
            "9 0 | 34584 .. 34591: 4321",
        ),
        (
            "ladder of 65 layers, 1 to 130",
            "0 64 9223372036854775808 | 3 .. 128: 4611686018427387904 |",
        ),
        ("plan A, g 2, 0 to 4", "0 65535 0 | |"),
        ("plan A, g 2, 0 to 3", "0 2 1 | 2: 1 |"),
        (
            "plan A, g 2, loads",
            "0 | 2: 1 3: 2 | 2: 4294967296 3: 8589934592 |",
        ),
        (
            "12 for plan A, g 17, 0 to 4",
            "12 0 0 | 0 .. 6: 999 | 0 .. 102: 999",
        ),
        ("12 for plan A, g 0, busiest", "12 0 | 0 .. 102: 999"),
        (
            "12 for plan A, g 65535, loads",
            "12 | 0 .. 6: 999 | 0 .. 5: 999 | 0 .. 102: 999",
        ),
        ("heard again while it waits, g 2, 0 to 2", "0 2 1 | 1: 1 |"),
        (
            "twice at 1, no path, g 1, h 1, 0 to 3",
            "0 4 1 | 1 .. 2: 1 |",
        ),
        (
            "twice at 1, no path, g 1, h 1, loads",
            "0 | 1: 3 2: 1 | 1: 12884901888 2: 4294967296 |",
        ),
        (
            "three times at 1, 2 and 3 in turn, g 1, h 1, 0 to 4",
            "0 6 4 | 1: 4 2 .. 3: 3 |",
        ),
        ("detour, T 255, g 1, h 253, 0 to 3", "0 4 1 | 1 .. 2: 1 |"),
        ("detour, T 255, g 1, h 254, 0 to 3", "0 2 1 | 1: 1 |"),
        (
            "14 for plan A, g 1, h 256, 0 to 4",
            "14 0 0 | 0 .. 6: 999 | 0 .. 102: 999",
        ),
        ("14 for plan A, g 16, h 15, busiest", "14 0 | 0 .. 102: 999"),
        (
            "spaced ladder of 64 layers, 2 wide, g 4, 0 to 128",
            "0 64 9223372036854775808 | 1 .. 126: 4611686018427387904 |",
        ),
    ];
    call_files::assert_lines(cases(), &lines);
}

/// P9 is of units that send on in the slot after hearing.
#[test]
fn p9_has_turnaround_1() {
    for label in ["P9 plan A, loads", "P9 plan A, longer, loads"] {
        assert_eq!(labelled(label).0.turnaround, 1, "{label}");
    }
}

#[test]
fn stdin_read_back_gives_the_cases() {
    call_files::assert_stdin(cases(), |case| case.lengths.to_vec());
}

#[test]
fn lines_read_back_give_the_outcomes() {
    let length = call_files::assert_read_back(cases());
    assert!(length < 520_000, "{length}");
}

#[test]
fn stdout_has_a_line_a_case() {
    call_files::assert_stdout(cases());
}

#[test]
fn lent_memory_is_what_the_operation_has() {
    for (case, outcome) in cases() {
        let [first, second, scratch] = case.lengths;
        let lent = match case.operation {
            Operation::Pair(..) => vec![first, scratch],
            Operation::Loads => vec![first, second, scratch],
            Operation::Busiest => vec![scratch],
            Operation::Foremost(..) | Operation::PartialLoads(_) => panic!("{}", case.label),
        };
        let left: Vec<usize> = outcome.buffers.iter().map(Vec::len).collect();
        assert_eq!(left, lent, "{}", case.label);
    }
}

#[test]
fn cases_fit_the_program() {
    let mut longest = [0; 3];
    let mut records: BTreeMap<usize, [usize; 3]> = BTreeMap::new();
    for (case, _) in cases() {
        assert!(case.bytes.len() <= LONGEST_PLAN, "{}", case.label);
        for (most, length) in longest.iter_mut().zip(case.lengths) {
            *most = length.max(*most);
        }
        let count = records.entry(case.bytes.len() / 6).or_default();
        count[kind(case.operation)] += 1;
    }
    assert!((0..3).all(|table| longest[table] <= LONGEST_TABLES[table]));
    assert_eq!([longest[0], longest[2]], [320, 262_200]);
    for full in [8192, 8193] {
        let seen = records[&full];
        assert!(seen.iter().all(|count| *count > 0), "{full}: {seen:?}");
    }
}

#[test]
fn walks_are_listed_but_for_large_plans() {
    let words = [
        "ladder",
        "before 9",
        "2^6",
        "blocks n 256",
        "0 meets all",
        "n 64, T 127",
        "row",
        "corners, longer",
        "8192 records in every slot, g 16",
    ];
    let mut listed = 0;
    for (case, _) in cases() {
        let is_named = words.iter().any(|word| case.label.contains(word));
        match case.counting {
            Counting::Listed => listed += 1,
            Counting::Fast => assert!(is_named, "{}", case.label),
        }
    }
    assert!(listed > 5500, "{listed}");
}

#[test]
fn listed_cases_are_counted_alike() {
    call_files::assert_counted_alike(cases(), Case::outcome);
}

#[test]
fn busiest_gives_the_lowest_of_the_largest_loads() {
    let mut seen = 0;
    for (case, outcome) in cases() {
        let prefix = case.label.strip_suffix("busiest");
        let Some(prefix) = prefix.filter(|_| case.stations <= 33) else {
            continue;
        };
        let loads = format!("{prefix}loads");
        let Some((_, loads)) = cases().iter().find(|(other, _)| other.label == loads) else {
            continue;
        };
        if outcome.number == 0 && loads.number == 0 {
            let loads = &loads.buffers[1][..case.stations.into()];
            let station = outcome.values[0] as usize;
            let (lower, rest) = loads.split_at(station);
            let (load, later) = rest.split_first().unwrap();
            assert!(lower.iter().all(|other| other < load), "{}", case.label);
            assert!(later.iter().all(|other| other <= load), "{}", case.label);
            seen += 1;
        }
    }
    assert!(seen > 300, "{seen}");
}

#[test]
fn tied_plans_have_the_largest_loads_stated() {
    for tied in TIED_PLANS {
        let (_, loads) = labelled(&format!("{}, loads", tied.label));
        let loads = &loads.buffers[1];
        let largest = loads.iter().max();
        let equal = (0..loads.len()).filter(|station| Some(&loads[*station]) == largest);
        assert_eq!(equal.collect::<Vec<_>>(), tied.largest, "{}", tied.label);
        let (_, busiest) = labelled(&format!("{}, busiest", tied.label));
        assert_eq!(busiest.values, [tied.largest[0] as u64], "{}", tied.label);
    }
}

/// How many cases a label's beginning has, by operation, and with which numbers.
fn small_numbers(prefix: &str) -> (BTreeMap<String, [usize; 3]>, [usize; 10]) {
    let mut calls: BTreeMap<String, [usize; 3]> = BTreeMap::new();
    let mut numbers = [0; 10];
    for (case, outcome) in cases() {
        let (plan, _) = case.label.split_once(", ").unwrap_or_default();
        if plan.starts_with(prefix) {
            let stations = format!("{plan} of {} stations", case.stations);
            calls.entry(stations).or_default()[kind(case.operation)] += 1;
            numbers[usize::from(outcome.number)] += 1;
        }
    }
    (calls, numbers)
}

#[test]
fn small_plans_have_every_pair() {
    let (calls, numbers) = small_numbers("small ");
    assert_eq!(calls.len(), 240);
    for (plan, calls) in calls {
        let words: Vec<&str> = plan.split(' ').collect();
        let stations: usize = words[3].parse().unwrap();
        assert_eq!(calls, [stations * (stations - 1), 1, 1], "{plan}");
    }
    assert!(numbers[0] > 3500 && numbers[8] > 100, "{numbers:?}");
    let (generated, _) = small_numbers("generated ");
    let every = |calls: &&[usize; 3]| calls[1] == 1 && calls[2] == 1;
    assert!(generated.values().filter(every).count() > 80);
}

#[test]
fn small_plans_vary() {
    let mut several = 0;
    let mut between = 0;
    for (case, outcome) in cases() {
        let is_pair = matches!(case.operation, Operation::Pair(..));
        if case.label.starts_with("small ") && is_pair && outcome.number == 0 {
            several += usize::from(outcome.values[1] > 1);
            let named = &outcome.buffers[0][..case.stations.into()];
            between += usize::from(named.iter().any(|through| *through > 0));
        }
    }
    assert!(several > 200 && between > 200, "{several}, {between}");
}

#[test]
fn shares_take_products_over_64_bits() {
    for mixed in mixed_ladders() {
        let (stations, _) = mixed.builder.sizes();
        assert_eq!(Some(&(usize::from(stations) - 1)), mixed.last.last());
        for end in mixed.last {
            let (_, outcome) = labelled(&format!("{}, 0 to {end}", mixed.label));
            let count = outcome.values[1];
            assert!(count > 1 << 32 && !count.is_power_of_two(), "{count}");
            let through = outcome.buffers[0].iter().filter(|count| **count > 0);
            let large = |through: &&u64| **through > 1 << 32;
            let parts = through.filter(large).filter(|through| {
                let product = u128::from(**through) << 32;
                product % u128::from(count) != 0
            });
            assert!(parts.count() > 10, "{}", mixed.label);
        }
    }
    let (_, outcome) = labelled("2^64-1 in one slot, loads");
    assert_eq!(outcome.number, 0);
}

/// Which blocks of a table's named part have an entry above 0.
fn used_blocks(label: &str, table: usize, stations: usize, block: usize) -> Vec<bool> {
    let (_, outcome) = labelled(label);
    let blocks = outcome.buffers[table][..stations].chunks(block);
    let used = |block: &[u64]| block.iter().any(|entry| *entry > 0);
    blocks.map(used).collect()
}

#[test]
fn blocks_are_uneven_and_used() {
    let mut uneven = [0; 2];
    for (stations, slots) in BLOCKS {
        let (n, most) = (usize::from(stations), 2 * usize::from(slots));
        let label = format!("blocks n {stations}, T {slots}, between");
        let pair = format!("{label}, {} to {}", n / 2, n / 2 + 1);
        let tables = [(pair, 0, most), (format!("{label}, loads"), 1, most - 1)];
        for (at, (label, table, block)) in tables.into_iter().enumerate() {
            let block = block.min(n);
            uneven[at] += usize::from(n % block != 0);
            let used = used_blocks(&label, table, n, block);
            let count = used.iter().filter(|used| **used).count();
            match slots {
                1 => assert_eq!(count, 0, "{label}"),
                _ => {
                    assert!(used[0] && used[used.len() - 1], "{label}");
                    assert!(4 * count > 3 * used.len(), "{label}");
                }
            }
        }
    }
    assert!(uneven.iter().all(|count| *count > 5), "{uneven:?}");
}

/// Blocks that leave room for what waits in as many slots as the turnaround says.
#[test]
fn blocks_beside_what_waits_are_uneven_and_used() {
    let mut uneven = [0; 2];
    for (stations, slots, turnaround) in TURNED_BLOCKS {
        let n = usize::from(stations);
        let (entries, parts) = (4 * (usize::from(slots) + 1), 1 + turnaround.min(slots));
        let most = |entries: usize| (entries / usize::from(parts) - 2).min(n);
        let label = format!("blocks n {stations}, T {slots}, g {turnaround}");
        let pair = format!("{label}, {} to {}", n / 2, n / 2 + 1);
        let tables = [
            (pair, 0, most(entries)),
            (format!("{label}, loads"), 1, most(entries - 2)),
        ];
        for (at, (label, table, block)) in tables.into_iter().enumerate() {
            uneven[at] += usize::from(n % block != 0);
            let used = used_blocks(&label, table, n, block);
            let count = used.iter().filter(|used| **used).count();
            assert!(used[0] && used[used.len() - 1], "{label}");
            assert!(2 * count > used.len(), "{label}");
        }
    }
    assert!(uneven.iter().all(|count| *count > 4), "{uneven:?}");
}

/// The plans with a detour for each two stations: each is in one walk, and the blocks beside what is kept for h slots
/// and the windows are mostly uneven.
#[test]
fn blocks_of_detours_are_uneven_and_used() {
    let mut uneven = 0;
    for (stations, slots, turnaround, keeping) in STALE_BLOCKS {
        let n = usize::from(stations);
        let label = format!("blocks n {stations}, T {slots}, g {turnaround}, h {keeping}");
        let (_, pair) = labelled(&format!("{label}, 0 to {}", n - 1));
        assert_eq!(pair.values, [4, (n as u64 - 2) / 2], "{label}");
        let mut through = vec![1; n];
        (through[0], through[n - 1]) = (0, 0);
        assert_eq!(pair.buffers[0], through, "{label}");
        let (entries, parts) = (4 * (slots + 1), keeping + 2);
        assert!(slots >= keeping + 2, "{label}");
        let block = n.min(usize::from(entries / parts - 2));
        uneven += usize::from(n % block != 0);
    }
    assert!(uneven > 4, "{uneven}");
}

#[test]
fn files_are_the_same_each_time() {
    call_files::assert_same_each_time(cases(), all_cases());
}

//! The table of refusals: every set of causes, for every operation.

use super::support::Owned;
use crate::answer::{number, Answer};
use crate::cases::{plan_bytes, Record, PLAN_A};
use crate::means::LISTED;
use crate::operation::{Answered, Lent, Operation, OPERATIONS};
use crate::plan::{Ends, PlanInput, KEPT, MOST_TURNAROUND};
use crate::ways::{Found, Way};

/// n and T of plan A.
const SIZES: (usize, usize) = (5, 4);
/// The record of plan A that a fault of the plan is in; it is the first of slot 2.
const CHANGED: usize = 4;

impl Operation {
    /// The named lengths of its 16-bit tables, of its 64-bit tables, of its sets, of its tables of entries with a
    /// sign, and of its buffers of bytes.
    fn named(self) -> [Vec<usize>; 5] {
        let (stations, slots) = SIZES;
        [
            self.narrow(stations, slots),
            self.wide(stations, slots),
            self.sets(stations),
            self.signed(stations),
            self.bytes(stations),
        ]
    }

    fn takes_scratch(self) -> bool {
        self.wide(1, 1).last() == Some(&8)
    }
}

#[test]
fn named_lengths_of_plan_a() {
    for (operation, narrow, wide, sets) in [
        (Operation::Check, vec![], vec![], vec![]),
        (Operation::Reach, vec![25, 5], vec![25, 5], vec![]),
        (Operation::Row, vec![], vec![25], vec![]),
        (Operation::RowNumber, vec![], vec![25], vec![]),
        (Operation::Pair, vec![], vec![5, 100], vec![]),
        (Operation::Loads, vec![], vec![5, 5, 100], vec![]),
        (Operation::Busiest, vec![], vec![100], vec![]),
        (Operation::FirstWay, vec![4], vec![100], vec![]),
        (Operation::NextWay, vec![4], vec![100], vec![]),
        (Operation::ThroughSet, vec![], vec![100], vec![5]),
        (Operation::Foremost, vec![], vec![5, 100], vec![]),
        (Operation::PartialLoads, vec![], vec![5, 5, 100], vec![]),
        (Operation::Verdict, vec![], vec![100], vec![]),
        (Operation::TakeIn, vec![255], vec![], vec![]),
        (Operation::TakeOut, vec![255], vec![], vec![]),
        (Operation::StruckOut, vec![], vec![100], vec![]),
        (Operation::DrawnLoads, vec![], vec![5, 5, 100], vec![]),
    ] {
        let (signed, bytes) = match operation {
            Operation::StruckOut => (vec![5], vec![]),
            Operation::DrawnLoads => (vec![], vec![90]),
            _ => (vec![], vec![]),
        };
        let named = [narrow, wide, sets, signed, bytes];
        assert_eq!(operation.named(), named, "{operation:?}");
    }
}

/// The arguments of one call but the lent memory.
#[derive(Clone, Debug)]
struct Arguments {
    stations: usize,
    slots: usize,
    turnaround: usize,
    keeping: usize,
    bytes: Vec<u8>,
    source: usize,
    destination: usize,
    /// Partial loads' k.
    sources: usize,
    /// Take in's c.
    channels: usize,
    /// The entry of slot 1 in a band's table.
    entry: u16,
    /// Struck out's position.
    position: usize,
    limit: u64,
    /// The first byte of a set.
    byte: u8,
}

impl Arguments {
    /// Plan A from 0 to 4, with each cause of the list but 8 and 10.
    fn with(causes: &[u8]) -> Arguments {
        let has = |cause: u8| causes.contains(&cause);
        let slot = match (has(3), has(5)) {
            (true, true) => 0,
            (true, false) => 5,
            (false, true) => 1,
            (false, false) => 2,
        };
        let (a, b) = match (has(4), has(5)) {
            (true, true) => (0, 0),
            (true, false) => (1, 1),
            (false, true) => (2, 0),
            (false, false) => (1, 3),
        };
        let mut records: Vec<Record> = PLAN_A.to_vec();
        records[CHANGED] = (slot, a, b);
        let mut bytes = plan_bytes(&records);
        bytes.extend(has(2).then_some(0));
        let (source, destination) = match (has(6), has(7)) {
            (true, true) => (5, 5),
            (true, false) => (0, 5),
            (false, true) => (0, 0),
            (false, false) => (0, 4),
        };
        Arguments {
            stations: if has(1) { 257 } else { 5 },
            slots: 4,
            turnaround: if has(12) { 17 } else { 1 },
            keeping: if has(14) { 0 } else { KEPT },
            bytes,
            source,
            destination,
            sources: if has(13) { 6 } else { 5 },
            channels: if has(15) { 1100 } else { 1300 },
            entry: if has(16) { 3 } else { 4 },
            position: if has(17) { 12 } else { 10 },
            limit: if has(9) { 2 } else { u64::MAX },
            byte: if has(11) { 2 } else { 1 },
        }
    }

    fn input(&self) -> PlanInput<'_> {
        PlanInput {
            bytes: &self.bytes,
            stations: self.stations,
            slots: self.slots,
            turnaround: self.turnaround,
            keeping: self.keeping,
        }
    }

    /// The one station that reach and row name.
    fn station(&self) -> usize {
        if self.destination >= self.stations {
            self.destination
        } else {
            self.source
        }
    }
}

/// Memory with 3 entries past each named part; `short` names a table, set or buffer that lacks one entry. A
/// set begins with the byte of the arguments, and has a wrong byte past its named part; a band's table begins with
/// their entry. A list has the entries offered.
fn lend(
    operation: Operation,
    short: Option<usize>,
    offered: &[u16],
    arguments: &Arguments,
) -> Lent {
    let byte = arguments.byte;
    let [narrow, wide, sets, signed, bytes] = operation.named();
    let length = |table: usize, named: &usize| match short {
        Some(other) if other == table => named - 1,
        _ => named + 3,
    };
    let filled = |(table, named)| (1..=length(table, named)).map(|value| 1000 + value as u64);
    let wide_from = narrow.len();
    let sets_from = wide_from + wide.len();
    let signed_from = sets_from + sets.len();
    let bytes_from = signed_from + signed.len();
    let set = |length: usize| [[byte, 0, 1, 1, 0], [2; 5]].concat()[..length].to_vec();
    let mut lent = Lent {
        narrow: (narrow.iter().enumerate())
            .map(|entry| filled(entry).map(|value| value as u16).collect())
            .collect(),
        wide: (wide.iter().enumerate())
            .map(|(table, named)| filled((wide_from + table, named)).collect())
            .collect(),
        signed: (signed.iter().enumerate())
            .map(|(table, named)| filled((signed_from + table, named)))
            .map(|entries| entries.map(|entry| -(entry as i64)).collect())
            .collect(),
        bytes: (bytes.iter().enumerate())
            .map(|(table, named)| filled((bytes_from + table, named)))
            .map(|entries| entries.map(|entry| entry as u8).collect())
            .collect(),
        sets: (sets.iter().enumerate())
            .map(|(table, named)| set(length(sets_from + table, named)))
            .collect(),
        list: if operation.takes_list() {
            offered.to_vec()
        } else {
            Vec::new()
        },
    };
    if operation.takes_way_buffer() {
        lent.narrow[0][..offered.len()].copy_from_slice(offered);
    }
    if operation.takes_band() {
        lent.narrow[0][0] = arguments.entry;
    }
    lent
}

/// Makes the call; gives its number, and whether zeros are beside it.
fn run(operation: Operation, arguments: &Arguments, lent: &mut Lent) -> (u32, bool) {
    let numbers = match (operation, operation.arguments()) {
        (Operation::PartialLoads, _) => [arguments.sources, 0],
        (Operation::TakeIn, _) => [arguments.channels, 0],
        (Operation::StruckOut, _) => [arguments.position, 0],
        (_, 1) => [arguments.station(), 0],
        _ => [arguments.source, arguments.destination],
    };
    let listed = LISTED.within(arguments.limit);
    let Answered { number, values } = listed.call(operation, arguments.input(), numbers, lent);
    (number, values.iter().all(|value| *value == 0))
}

/// The memory after a call with a cause of refusal.
fn memory_after(operation: Operation, refusal: u32, before: &Lent) -> Lent {
    let mut after = before.clone();
    let [narrow, wide, _, signed, bytes] = operation.named();
    if refusal == 9 || refusal == 10 {
        for (table, named) in after.wide.iter_mut().zip(wide) {
            table[..named].fill(0);
        }
    }
    if refusal == 9 && !operation.takes_way_buffer() {
        for (table, named) in after.narrow.iter_mut().zip(narrow) {
            table[..named].fill(0);
        }
        for (table, named) in after.signed.iter_mut().zip(signed) {
            table[..named].fill(0);
        }
        for (buffer, named) in after.bytes.iter_mut().zip(bytes) {
            buffer[..named].fill(0);
        }
    }
    after
}

/// The largest number of a cause.
const MOST: usize = 17;

/// All sets of the numbers of causes; 15 and 16 are of a band's table, which other operations are not lent, and 17 is of
/// struck out's position.
fn sets_of_causes(operation: Operation) -> impl Iterator<Item = Vec<u8>> {
    let mut numbers: Vec<u8> = (1..=MOST as u8).collect();
    numbers.retain(|number| match number {
        15 | 16 => operation.takes_band(),
        17 => operation == Operation::StruckOut,
        _ => true,
    });
    let sets = 1 << numbers.len();
    let set = move |bits: u32| {
        let chosen = |place: &usize| bits >> place & 1 == 1;
        let places = (0..numbers.len()).filter(chosen);
        places.map(|place| numbers[place]).collect()
    };
    (0..sets).map(set)
}

/// The tables that may be short: each in turn with cause 8, none without.
fn short_tables(operation: Operation, causes: &[u8]) -> Vec<Option<usize>> {
    let tables = operation.named().concat().len();
    if causes.contains(&8) && tables > 0 {
        (0..tables).map(Some).collect()
    } else {
        vec![None]
    }
}

#[test]
fn every_set_of_causes_gives_its_first() {
    let mut calls = [0; MOST + 1];
    for operation in OPERATIONS {
        for causes in sets_of_causes(operation) {
            let arguments = Arguments::with(&causes);
            let offered = if causes.contains(&10) {
                [0, 5, 10]
            } else {
                [0, 4, 10]
            };
            let known = operation.causes().iter();
            let holds = |cause: &u32| causes.contains(&(*cause as u8));
            let expected = known.copied().find(holds);
            for short in short_tables(operation, &causes) {
                let before = lend(operation, short, &offered, &arguments);
                let mut after = before.clone();
                let (number, zeros) = run(operation, &arguments, &mut after);
                let place = format!("{operation:?} {causes:?} {short:?}");
                assert_eq!(number, expected.unwrap_or(0), "{place}");
                calls[number as usize] += 1;
                if number > 0 {
                    assert!(zeros, "{place}");
                    let expected = memory_after(operation, number, &before);
                    assert_eq!(after, expected, "{place}");
                }
            }
        }
    }
    assert!(calls.iter().all(|count| *count > 0), "{calls:?}");
}

#[test]
fn accepted_calls_leave_unnamed_parts() {
    let arguments = Arguments::with(&[]);
    for operation in OPERATIONS {
        let before = lend(operation, None, &[0, 4, 10], &arguments);
        let mut after = before.clone();
        assert_eq!(run(operation, &arguments, &mut after).0, 0);
        assert_eq!((&after.sets, &after.list), (&before.sets, &before.list));
        let [narrow, wide, _, signed, bytes] = operation.named();
        for (table, named) in signed.into_iter().enumerate() {
            assert_eq!(after.signed[table][named..], before.signed[table][named..]);
        }
        for (buffer, named) in bytes.into_iter().enumerate() {
            assert_eq!(after.bytes[buffer][named..], before.bytes[buffer][named..]);
        }
        for (table, named) in narrow.into_iter().enumerate() {
            assert_eq!(after.narrow[table][named..], before.narrow[table][named..]);
        }
        for (table, named) in wide.into_iter().enumerate() {
            assert_eq!(after.wide[table][named..], before.wide[table][named..]);
        }
        if operation.takes_scratch() {
            let scratch = &after.wide[after.wide.len() - 1];
            assert!(scratch[..100].iter().all(|entry| *entry == 0));
        }
        if operation.takes_way_buffer() {
            assert_eq!(after.narrow[0][3..], before.narrow[0][3..]);
        }
    }
}

#[test]
fn exact_lengths_are_accepted() {
    let owned = Owned::plan_a();
    assert!(owned.reach(u64::MAX, 0).is_ok());
    assert!(owned.pair(u64::MAX, 0, 4).is_ok());
    assert!(owned.loads(u64::MAX).is_ok());
    assert!(owned.busiest(u64::MAX).is_ok());
    assert!(owned.partial_loads(u64::MAX, 2).is_ok());
    assert!(owned.through_set(u64::MAX, (0, 4), &[1; 5]).is_ok());
    assert!(owned.foremost(u64::MAX, (0, 4)).is_ok());
    let (mut buffer, mut scratch) = ([9; 4], [9; 100]);
    assert!(first(&owned, (0, 4), &mut buffer, &mut scratch).is_ok());
    assert!(next(&owned, (0, 4), &mut buffer, &mut scratch).is_ok());
}

/// First way by the plain lister.
fn first(owned: &Owned, ends: Ends, buffer: &mut [u16], scratch: &mut [u64]) -> Answer<Found> {
    LISTED.way(Way::First, owned.input(), ends, buffer, scratch)
}

/// Next way by the plain lister.
fn next(owned: &Owned, ends: Ends, buffer: &mut [u16], scratch: &mut [u64]) -> Answer<Found> {
    LISTED.way(Way::Next, owned.input(), ends, buffer, scratch)
}

#[test]
fn short_way_buffer_is_8_without_a_path() {
    let owned = Owned::plan_a();
    let (mut buffer, mut scratch) = ([9; 3], [9; 100]);
    let first = first(&owned, (2, 1), &mut buffer, &mut scratch);
    let next = next(&owned, (2, 1), &mut buffer, &mut scratch);
    assert_eq!((number(&first), number(&next)), (8, 8));
    assert_eq!((buffer, scratch), ([9; 3], [9; 100]));
}

#[test]
fn none_and_last_leave_the_way_buffer() {
    let owned = Owned::plan_a();
    let (mut buffer, mut scratch) = ([9; 6], [9; 103]);
    assert!(first(&owned, (2, 1), &mut buffer, &mut scratch).is_ok());
    assert_eq!(buffer, [9; 6]);
    assert!(scratch[..100].iter().all(|entry| *entry == 0));
    assert_eq!(scratch[100..], [9; 3]);
    let (mut buffer, mut scratch) = ([1, 8, 10, 9, 9, 9], [9; 103]);
    assert!(next(&owned, (0, 4), &mut buffer, &mut scratch).is_ok());
    assert_eq!(buffer, [1, 8, 10, 9, 9, 9]);
    assert!(scratch[..100].iter().all(|entry| *entry == 0));
}

/// Numbers around the limits of g and of k on plan A, and far ones; some are inside the limits in their low
/// bits alone.
const EDGES: [usize; 19] = [
    0,
    1,
    2,
    4,
    5,
    6,
    7,
    15,
    16,
    17,
    255,
    256,
    257,
    65535,
    65536,
    65537,
    1 << 32,
    1 << 63,
    usize::MAX,
];

/// Every operation on plan A with a turnaround: 12 outside of its limits, and nothing is written then. Check,
/// row, take in and take out do not look at it.
#[test]
fn turnarounds_outside_of_their_limits_are_12() {
    for turnaround in EDGES {
        let arguments = Arguments {
            turnaround,
            ..Arguments::with(&[])
        };
        for operation in OPERATIONS {
            let before = lend(operation, None, &[0, 4, 10], &arguments);
            let mut after = before.clone();
            let (number, _) = run(operation, &arguments, &mut after);
            let takes = operation.causes().contains(&12);
            let refused = takes && !(1..=16).contains(&turnaround);
            assert_eq!(number == 12, refused, "{operation:?} {turnaround}");
            assert!(!refused || before == after, "{operation:?} {turnaround}");
        }
    }
}

/// Every operation on plan A with a turnaround and a keeping: 14 below g and above 255 where g is inside its
/// limits, and nothing is written then. Check, row, foremost, take in and take out do not look at it.
#[test]
fn keepings_outside_of_their_limits_are_14() {
    for turnaround in 0..=MOST_TURNAROUND + 1 {
        for keeping in EDGES {
            let arguments = Arguments {
                turnaround,
                keeping,
                ..Arguments::with(&[])
            };
            for operation in OPERATIONS {
                let before = lend(operation, None, &[0, 4, 10], &arguments);
                let mut after = before.clone();
                let (number, _) = run(operation, &arguments, &mut after);
                let takes = operation.causes().contains(&14);
                let known = (1..=MOST_TURNAROUND).contains(&turnaround);
                let refused = takes && known && (keeping < turnaround || keeping > 255);
                let place = format!("{operation:?} {turnaround} {keeping}");
                assert_eq!(number == 14, refused, "{place}");
                assert!(!refused || before == after, "{place}");
            }
        }
    }
}

/// Foremost answers the same whatever h is.
#[test]
fn foremost_does_not_look_at_the_keeping() {
    let asked = |keeping: usize| {
        let arguments = Arguments {
            keeping,
            ..Arguments::with(&[])
        };
        let mut lent = lend(Operation::Foremost, None, &[], &arguments);
        (run(Operation::Foremost, &arguments, &mut lent), lent)
    };
    for keeping in EDGES {
        assert_eq!(asked(keeping), asked(KEPT), "{keeping}");
    }
}

/// Partial loads on plan A: 13 above n, and nothing is written then.
#[test]
fn sources_above_n_are_13() {
    for sources in EDGES {
        let arguments = Arguments {
            sources,
            ..Arguments::with(&[])
        };
        let before = lend(Operation::PartialLoads, None, &[], &arguments);
        let mut after = before.clone();
        let (number, _) = run(Operation::PartialLoads, &arguments, &mut after);
        assert_eq!(number, if sources > 5 { 13 } else { 0 }, "{sources}");
        assert_eq!(before == after, sources > 5, "{sources}");
    }
}

/// Struck out on plan A: 17 where the position is not below 12, and nothing is written then.
#[test]
fn positions_of_no_record_are_17() {
    for position in EDGES.into_iter().chain(0..14) {
        let arguments = Arguments {
            position,
            ..Arguments::with(&[])
        };
        let before = lend(Operation::StruckOut, None, &[], &arguments);
        let mut after = before.clone();
        let (number, _) = run(Operation::StruckOut, &arguments, &mut after);
        assert_eq!(number, if position < 12 { 0 } else { 17 }, "{position}");
        assert_eq!(before == after, position >= 12, "{position}");
    }
}

#[test]
fn struck_out_alone_takes_a_position() {
    for operation in OPERATIONS {
        let causes = operation.causes();
        let takes = causes.contains(&17);
        assert_eq!(takes, operation == Operation::StruckOut);
        assert!(!takes || causes.windows(3).any(|three| three == [8, 17, 9]));
    }
}

#[test]
fn partial_loads_alone_takes_a_number_of_sources() {
    for operation in OPERATIONS {
        let causes = operation.causes();
        let takes = causes.contains(&13);
        assert_eq!(takes, operation == Operation::PartialLoads);
        assert!(!takes || causes.windows(4).any(|four| four == [12, 14, 13, 8]));
    }
}

#[test]
fn operations_that_take_a_turnaround() {
    use Operation::*;
    for operation in OPERATIONS {
        let takes = !matches!(operation, Check | Row | RowNumber | TakeIn | TakeOut);
        let causes = operation.causes();
        assert_eq!(causes.contains(&12), takes, "{operation:?}");
        let place = |cause: u32| causes.iter().position(|other| *other == cause);
        if takes {
            assert_eq!(place(12), place(5).map(|place| place + 1), "{operation:?}");
        }
    }
}

#[test]
fn operations_that_take_a_keeping() {
    use Operation::*;
    for operation in OPERATIONS {
        let without = matches!(operation, Check | Row | RowNumber | Foremost);
        let takes = !without && !operation.takes_band();
        let causes = operation.causes();
        assert_eq!(causes.contains(&14), takes, "{operation:?}");
        let place = |cause: u32| causes.iter().position(|other| *other == cause);
        if takes {
            assert_eq!(place(14), place(12).map(|place| place + 1), "{operation:?}");
        }
    }
}

#[test]
fn stations_far_out_are_6() {
    let owned = Owned::plan_a();
    for far in [5, 256, 260, 65535, 65536, 1 << 32] {
        let six = |answer_number: u8| assert_eq!(answer_number, 6, "station {far}");
        six(number(&owned.reach(u64::MAX, far)));
        six(number(&owned.pair(u64::MAX, far, 0)));
        six(number(&owned.pair(u64::MAX, 0, far)));
        six(number(&owned.pair(u64::MAX, far, far)));
        for ends in [(far, 0), (0, far), (far, far)] {
            six(number(&owned.through_set(u64::MAX, ends, &[1; 5])));
            six(number(&owned.foremost(u64::MAX, ends)));
        }
    }
}

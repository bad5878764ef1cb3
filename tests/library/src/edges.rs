//! Plans at the edges of the limits: most stations, slots and records, counts around 2^64 and around what a lane holds,
//! the smallest and the largest g and h, numbers of sources around n and around a source with too many walks, and long lists.

use lister::cases::{Record, PLAN_A};
use lister::means::COUNTED;
use lister::operation::{Operation, LAST, OPERATIONS};
use lister::pair_cases::LabelledPlan;
use lister::plan::{LEAST_TURNAROUND, MOST_TURNAROUND};
use lister::plans::{pairs, Owned};
use lister::random::Random;
use lister::reach_cases::{
    exact_plans, falling_ladder, ladder, most_turnaround, sent_ladder, spaced_ladder,
    spaced_sent_ladder, SPACED_LADDERS,
};
use lister::stale::{detours_around, ladders_around, stale_blocks};
use lister::turned::spaced_row;

use crate::call::Call;
use crate::compare::{Comparison, Difference};
use crate::lend::{self, Lengths};
use crate::lists;
use crate::partial::{self, arguments};
use crate::rounds::{draw_loads, some_calls};

/// The number of cause 9.
const TOO_MANY: u32 = 9;

/// Compares them; the seed is of stations, lengths and contents.
pub fn compare(comparison: &mut Comparison, seed: u64) -> Result<(), Difference> {
    let random = &mut Random::new(seed);
    for owned in plans() {
        ends(comparison, random, &owned)?;
        some_calls(comparison, random, &owned, COUNTED, 2)?;
    }
    most_records(comparison, random)?;
    for turnaround in [LEAST_TURNAROUND, 2, MOST_TURNAROUND] {
        last_positions(comparison, random, turnaround)?;
    }
    turnarounds(comparison, random)?;
    keepings(comparison, random)?;
    sources(comparison, random)?;
    sources_with_many_walks(comparison, random)?;
    lanes(comparison, random)?;
    verdicts(comparison, random)?;
    lists::long(comparison, random)
}

/// So many records in the first slots, each slot's between the first 64 stations.
pub fn packed(records: usize) -> Vec<Record> {
    let of_slot = |slot: u16| pairs(64).map(move |(a, b)| (slot, a as u16, b as u16));
    (1..=3).flat_map(of_slot).take(records).collect()
}

/// 8,192 records. The last one is the only one that the last station hears.
fn last_heard() -> Owned {
    let mut records = packed(8191);
    records.push((255, 5, 255));
    Owned::new(256, 255, &records)
}

/// Each station sends to the next in a slot of its own: 255 hops from end to end.
fn line() -> Owned {
    let records: Vec<Record> = (1..=255).map(|slot| (slot, slot - 1, slot)).collect();
    Owned::new(256, 255, &records)
}

/// Each station hears the next in those slots: nothing goes from end to end.
fn line_back() -> Owned {
    let records: Vec<Record> = (1..=255).map(|slot| (slot, slot, slot - 1)).collect();
    Owned::new(256, 255, &records)
}

fn plans() -> Vec<Owned> {
    let mut plans = vec![Owned::new(1, 1, &[]), Owned::new(256, 255, &[])];
    plans.extend([line(), line_back(), last_heard()]);
    for records in [8191, 8192, 8193] {
        plans.push(Owned::new(256, 255, &packed(records)));
    }
    for (layers, width) in [(63, 2), (64, 2), (65, 2), (41, 3), (42, 3)] {
        plans.push(Owned::built(&ladder(layers, width)));
        plans.push(Owned::built(&sent_ladder(layers, width)));
    }
    plans.extend([64, 65].map(|layers| Owned::built(&falling_ladder(layers))));
    let exact = exact_plans(64, LEAST_TURNAROUND);
    plans.extend(exact.iter().map(|plan| Owned::built(&plan.builder)));
    plans.extend(turned_plans());
    plans.extend(stale_plans());
    plans
}

/// Plans with h: readings go from end to end with each h of some, and are dropped on the way with a smaller one of
/// others; ladders whose hops are exactly h apart, and one slot more.
fn stale_plans() -> Vec<Owned> {
    let mut plans = Vec::new();
    for keeping in [1, 2, 64, 100, 252, 253, 254] {
        let full = Owned::new(256, 255, &packed(8192));
        plans.extend([line(), last_heard(), full].map(|plan| plan.keeping_for(keeping)));
    }
    for (turnaround, layers, width, _) in SPACED_LADDERS {
        let sent = Owned::built(&spaced_sent_ladder(turnaround, layers, width));
        plans.push(sent.clone().keeping_for(turnaround));
        plans.push(sent.turning(1).keeping_for((turnaround - 1).max(1)));
        let both = Owned::built(&spaced_ladder(turnaround, layers, width));
        plans.push(both.keeping_for(turnaround + 1));
    }
    let exact = [exact_plans(64, 1), exact_plans(64, 2)].concat();
    for (index, plan) in exact.iter().enumerate() {
        let owned = Owned::built(&plan.builder);
        let keeping = owned.turnaround + index % 3;
        plans.push(owned.keeping_for(keeping));
    }
    plans.extend(ladders_around().iter().map(|(plan, _)| plan.owned()));
    plans.extend(detours_around().iter().map(LabelledPlan::owned));
    plans.extend(stale_blocks().iter().map(LabelledPlan::owned));
    plans
}

/// Counts on either side of what a lane of 8, 16 and 32 bits holds, undercut later or not, with sources beside them whose
/// counts are small; where every reading is kept and where some are dropped.
fn lane_plans() -> Vec<Owned> {
    let mut plans = Vec::new();
    for bits in [8, 16, 32] {
        for turnaround in [LEAST_TURNAROUND, 2] {
            for (index, plan) in exact_plans(bits, turnaround).iter().enumerate() {
                let owned = Owned::built(&plan.builder);
                let keeping = owned.turnaround + index % 3;
                plans.extend([owned.clone(), owned.keeping_for(keeping)]);
            }
        }
    }
    plans
}

/// Loads and struck out on each of them.
fn lanes(comparison: &mut Comparison, random: &mut Random) -> Result<(), Difference> {
    for owned in lane_plans() {
        let stations = [0, owned.stations - 1];
        for operation in [Operation::Loads, Operation::StruckOut] {
            let call = lend::call(random, operation, owned.input(), stations, Lengths::Named);
            comparison.compare(&call, COUNTED)?;
        }
    }
    Ok(())
}

/// Plans with turnarounds above 1: none of the hops of some can follow each other, those of others just can.
fn turned_plans() -> Vec<Owned> {
    let mut plans = Vec::new();
    for turnaround in [2, 3, MOST_TURNAROUND] {
        let empty = Owned::new(256, 255, &[]);
        let full = Owned::new(256, 255, &packed(8192));
        let row = Owned::new(256, 255, &spaced_row(turnaround as u16));
        let most = [empty, line(), last_heard(), full, row];
        plans.extend(most.map(|plan| plan.turning(turnaround)));
        plans.push(Owned::built(&ladder(64, 2)).turning(turnaround));
    }
    for (turnaround, layers, width, _) in SPACED_LADDERS {
        let sent = Owned::built(&spaced_sent_ladder(turnaround, layers, width));
        plans.push(sent.clone().turning(turnaround - 1));
        plans.push(sent);
        plans.push(Owned::built(&spaced_ladder(turnaround, layers, width)));
    }
    let exact = [exact_plans(64, 2), exact_plans(64, 3), most_turnaround()].concat();
    plans.extend(exact.iter().map(|plan| Owned::built(&plan.builder)));
    plans
}

/// Each operation from the first station to the last, on memory of exactly the named lengths; loads, busiest, drawn loads
/// and struck out at the first position where they are refused or drawn. Partial loads of no source, of the first, and of one
/// too many.
fn ends(comparison: &mut Comparison, random: &mut Random, owned: &Owned) -> Result<(), Difference> {
    let stations = [0, owned.stations - 1];
    let mut refused = false;
    let mut way = Vec::new();
    for operation in OPERATIONS {
        let of_all = matches!(
            operation,
            Operation::Loads | Operation::Busiest | Operation::StruckOut | Operation::DrawnLoads
        );
        if of_all && !refused && !draw_loads(random, owned) {
            continue;
        }
        if operation == Operation::PartialLoads {
            let numbers = [0, 1, owned.stations + 1];
            partial::in_turn(comparison, random, owned, COUNTED, &numbers)?;
            continue;
        }
        let mut call = lend::call(random, operation, owned.input(), stations, Lengths::Named);
        if operation == Operation::NextWay {
            call.lent.narrow.clone_from(&way);
        }
        let seen = comparison.compare(&call, COUNTED)?;
        refused |= seen.number == TOO_MANY;
        way = seen.lent.narrow;
    }
    Ok(())
}

/// Compares a call, whose number is stated by hand too.
pub fn stated(comparison: &mut Comparison, call: &Call, number: u32) -> Result<(), Difference> {
    let seen = comparison.compare(call, COUNTED)?;
    match seen.number == number {
        true => Ok(()),
        false => Err(format!(
            "{call}stated: {number}\nlibrary: {}\n",
            seen.number
        )),
    }
}

/// 8,192 records are accepted, and one more gives 2.
fn most_records(comparison: &mut Comparison, random: &mut Random) -> Result<(), Difference> {
    for (records, number) in [(8191, 0), (8192, 0), (8193, 2)] {
        let owned = Owned::new(256, 255, &packed(records));
        let (operation, input) = (Operation::Check, owned.input());
        let call = lend::call(random, operation, input, [0, 0], Lengths::Named);
        stated(comparison, &call, number)?;
    }
    Ok(())
}

/// Next way on paths that end with position 8,191, and on positions that are no such path, some of
/// them no record's. The last hop is more than the largest turnaround after the first.
fn last_positions(
    comparison: &mut Comparison,
    random: &mut Random,
    turnaround: usize,
) -> Result<(), Difference> {
    let owned = last_heard().turning(turnaround);
    for (offered, number) in [
        ([4, 8191], 0),
        ([4036, 8191], 0),
        ([8068, 8191], LAST),
        ([4, 8192], 10),
        ([4, 65535], 10),
        ([8191, 8191], 10),
        ([8192, 8191], 10),
    ] {
        let (operation, input) = (Operation::NextWay, owned.input());
        let mut call = lend::call(random, operation, input, [0, 255], Lengths::Named);
        call.lent.narrow[0][..2].copy_from_slice(&offered);
        stated(comparison, &call, number)?;
    }
    Ok(())
}

/// Turnarounds at their limits and outside of them, some inside in their low bits: every operation that takes
/// one gives 12 outside, and check and row do not look at it.
const TURNAROUNDS: [(usize, bool); 12] = [
    (0, false),
    (1, true),
    (2, true),
    (15, true),
    (16, true),
    (17, false),
    (256 + 1, false),
    (65535, false),
    (65536 + 1, false),
    ((1 << 32) + 1, false),
    (1 << 63, false),
    (usize::MAX, false),
];

fn turnarounds(comparison: &mut Comparison, random: &mut Random) -> Result<(), Difference> {
    let records = [(1, 0, 1), (1, 1, 2), (17, 1, 2), (17, 2, 3), (33, 2, 3)];
    for (turnaround, known) in TURNAROUNDS {
        let owned = Owned::new(4, 33, &records).turning(turnaround);
        for operation in OPERATIONS {
            for lengths in [Lengths::Named, Lengths::Any] {
                let arguments = arguments(random, operation, owned.input(), [0, 3]);
                let call = lend::call(random, operation, owned.input(), arguments, lengths);
                if !known && operation.causes().contains(&12) {
                    stated(comparison, &call, 12)?;
                } else {
                    comparison.compare(&call, COUNTED)?;
                }
            }
        }
    }
    Ok(())
}

/// h at its limits and outside of them with g = 3, some inside in their low bits: every operation that takes one gives
/// 14 outside, and check, row and foremost do not look at it.
const KEEPINGS: [(usize, bool); 15] = [
    (0, false),
    (1, false),
    (2, false),
    (3, true),
    (4, true),
    (32, true),
    (254, true),
    (255, true),
    (256, false),
    (256 + 3, false),
    (65535, false),
    (65536 + 3, false),
    ((1 << 32) + 3, false),
    (1 << 63, false),
    (usize::MAX, false),
];

fn keepings(comparison: &mut Comparison, random: &mut Random) -> Result<(), Difference> {
    let records = [(1, 0, 1), (4, 1, 2), (5, 1, 2), (33, 1, 2), (33, 2, 3)];
    for (keeping, known) in KEEPINGS {
        let owned = Owned::new(4, 33, &records).turning(3).keeping_for(keeping);
        for operation in OPERATIONS {
            for lengths in [Lengths::Named, Lengths::Any] {
                let arguments = arguments(random, operation, owned.input(), [0, 3]);
                let call = lend::call(random, operation, owned.input(), arguments, lengths);
                if !known && operation.causes().contains(&14) {
                    stated(comparison, &call, 14)?;
                } else {
                    comparison.compare(&call, COUNTED)?;
                }
            }
        }
    }
    for (plan, number) in ladders_around() {
        let owned = plan.owned();
        let (operation, input) = (Operation::Pair, owned.input());
        let call = lend::call(random, operation, input, [0, 1], Lengths::Named);
        stated(comparison, &call, number.into())?;
    }
    Ok(())
}

/// Numbers of sources around the 5 stations of plan A and far above; some are at most 5 in their low bits alone.
const SOURCES: [usize; 12] = [
    0,
    1,
    4,
    5,
    6,
    255,
    256 + 5,
    65535,
    65536 + 1,
    (1 << 32) + 5,
    1 << 63,
    usize::MAX,
];

fn sources(comparison: &mut Comparison, random: &mut Random) -> Result<(), Difference> {
    for turnaround in [LEAST_TURNAROUND, 2, MOST_TURNAROUND] {
        let owned = Owned::new(5, 4, &PLAN_A).turning(turnaround);
        for sources in SOURCES {
            let number = if sources > 5 { 13 } else { 0 };
            stated_sources(comparison, random, &owned, sources, number)?;
        }
    }
    Ok(())
}

/// Loads with counts up to 2^63 and partial loads of some numbers of sources; then a ladder of 65 layers whose source
/// is not the first station: the sources before it are accepted, and with it all numbers up to n are refused.
fn sources_with_many_walks(
    comparison: &mut Comparison,
    random: &mut Random,
) -> Result<(), Difference> {
    for builder in [ladder(64, 2), falling_ladder(64), spaced_ladder(4, 64, 2)] {
        let owned = Owned::built(&builder);
        let n = owned.stations;
        let numbers = [0, 1, 2, n / 2, n - 1, n, n + 1];
        partial::with_loads(comparison, random, &owned, COUNTED, &numbers)?;
    }
    for source in [1, 64, 130] {
        let owned = Owned::built(&ladder(65, 2).with_source(source));
        let numbers = [(0, 0), (source, 0), (source + 1, 9), (131, 9), (132, 13)];
        for (sources, number) in numbers {
            stated_sources(comparison, random, &owned, sources, number)?;
        }
    }
    Ok(())
}

/// The listing of some pairs with up to 2^63 paths, at most 3 of them asked for, with g = 1 and g = 4; and of pairs with
/// none and with the last position, with g = 1.
fn verdicts(comparison: &mut Comparison, random: &mut Random) -> Result<(), Difference> {
    for builder in [
        spaced_ladder(1, 64, 2),
        spaced_sent_ladder(1, 41, 3),
        spaced_ladder(4, 64, 2),
    ] {
        let owned = Owned::built(&builder);
        let stations = [0, owned.stations - 1];
        lists::listing(comparison, random, &owned, stations, (COUNTED, 3))?;
    }
    for owned in [line(), line_back(), last_heard()] {
        let owned = owned.turning(1);
        lists::listing(comparison, random, &owned, [0, 255], (COUNTED, 2))?;
        lists::listing(comparison, random, &owned, [0, 255], (COUNTED, 3))?;
    }
    Ok(())
}

/// Partial loads, whose number is stated by hand too.
fn stated_sources(
    comparison: &mut Comparison,
    random: &mut Random,
    owned: &Owned,
    sources: usize,
    number: u32,
) -> Result<(), Difference> {
    let (operation, input) = (Operation::PartialLoads, owned.input());
    let call = lend::call(random, operation, input, [sources, 0], Lengths::Named);
    stated(comparison, &call, number)
}

//! All plans of tiny sizes with the first turnarounds and small h, one-way plans, plans with equal loads, plans in
//! which the earliest slot decides, plans with turnarounds and plans that drop readings, in all calls.

use lister::cases::{plan_bytes, Record, PLAN_A};
use lister::foremost_cases::ARRIVALS;
use lister::means::LISTED;
use lister::one_way::ONE_WAY_PLANS;
use lister::operation::{Operation, OPERATIONS};
use lister::pair_cases::TIED_PLANS;
use lister::plan::{PlanInput, KEPT, RECORD_BYTES};
use lister::plans::{all_doubled_plans, all_lists, all_plans, pairs, possible_records, Owned};
use lister::random::Random;
use lister::set_cases::all_sets;
use lister::sets::set_of;
use lister::turned::{rows_around, two_links, TURNED_PLANS};

use crate::band;
use crate::compare::{Comparison, Difference};
use crate::lend::{self, Lengths};
use crate::lists;
use crate::partial::{arguments, every_number};
use crate::stale::{self, Terms};
use crate::struck::every_position;

/// Compares all of them; the seed is of what the tables hold before.
pub fn compare(comparison: &mut Comparison, seed: u64, terms: Terms) -> Result<(), Difference> {
    let random = &mut Random::new(seed);
    for (stations, slots) in [(1, 1), (1, 2), (2, 1), (2, 2), (2, 3), (3, 1)] {
        let plans = all_plans(stations, slots);
        for owned in &plans {
            for turnaround in TURNAROUNDS {
                let turned = owned.clone().turning(turnaround);
                every_argument(comparison, random, &turned)?;
            }
        }
        for owned in Terms::Every.of(plans) {
            every_argument(comparison, random, &owned)?;
        }
    }
    for owned in all_doubled_plans(3, 2) {
        every_argument(comparison, random, &owned)?;
    }
    let all = all_plans(3, 2);
    for owned in &all {
        every_pair(comparison, random, owned)?;
    }
    turned(comparison, random)?;
    stale::compare(comparison, random, terms)?;
    for owned in all.iter().step_by(61) {
        every_argument(comparison, random, owned)?;
    }
    for plan in ONE_WAY_PLANS {
        every_call(comparison, random, &plan.owned())?;
        lists::every_near(comparison, random, &plan.owned())?;
    }
    for tied in TIED_PLANS {
        every_call(comparison, random, &tied.owned())?;
    }
    for arrival in ARRIVALS {
        every_call(comparison, random, &arrival.owned())?;
    }
    for owned in all_doubled_plans(4, 2).iter().step_by(19) {
        every_set(comparison, random, owned)?;
    }
    for _ in 0..200 {
        let owned = one_way(random, 4, 2);
        every_set(comparison, random, &owned)?;
    }
    every_size(comparison, random)?;
    every_sequence(comparison, random)?;
    every_length(comparison, random)?;
    every_set_byte(comparison, random)
}

/// The turnarounds of all plans of tiny sizes.
const TURNAROUNDS: [usize; 3] = [1, 2, 3];

/// Plans with turnarounds above 1: some of three stations and two slots, all doubled ones of three stations
/// and three slots, all of two links in four slots, rows with T around the turnaround, and those by hand.
fn turned(comparison: &mut Comparison, random: &mut Random) -> Result<(), Difference> {
    for (index, owned) in all_plans(3, 2).into_iter().step_by(5).enumerate() {
        let owned = owned.turning(2 + index % 2);
        every_pair(comparison, random, &owned)?;
    }
    for owned in all_doubled_plans(3, 3) {
        for turnaround in [2, 3] {
            let turned = owned.clone().turning(turnaround);
            every_pair(comparison, random, &turned)?;
        }
    }
    for plan in two_links() {
        for turnaround in [2, 3, 4] {
            let turned = plan.owned().turning(turnaround);
            every_pair(comparison, random, &turned)?;
        }
    }
    for plan in rows_around() {
        every_call(comparison, random, &plan.owned())?;
    }
    for plan in TURNED_PLANS {
        every_call(comparison, random, &plan.owned())?;
        lists::every_near(comparison, random, &plan.owned())?;
    }
    Ok(())
}

/// A plan with each possible record at odds of one in three.
fn one_way(random: &mut Random, stations: usize, slots: usize) -> Owned {
    let mut records = possible_records(stations, slots);
    records.retain(|_| random.below(3) == 0);
    Owned::new(stations, slots, &records)
}

/// Every operation with every station up to n, every way buffer, every set, every list of up to two positions and
/// every list near a complete one.
fn every_argument(
    comparison: &mut Comparison,
    random: &mut Random,
    owned: &Owned,
) -> Result<(), Difference> {
    every_call(comparison, random, owned)?;
    every_buffer(comparison, random, owned)?;
    lists::every_list(comparison, random, owned, 2)?;
    lists::every_near(comparison, random, owned)?;
    every_set(comparison, random, owned)
}

/// Every operation that reads a plan, from every station, for every pair, at every position; next way is offered the
/// first walk, and the verdict is on the complete list.
pub fn every_pair(
    comparison: &mut Comparison,
    random: &mut Random,
    owned: &Owned,
) -> Result<(), Difference> {
    let input = owned.input();
    every_number(comparison, random, owned)?;
    every_position(comparison, random, owned)?;
    for operation in [Operation::Check, Operation::Busiest, Operation::DrawnLoads] {
        let call = lend::call(random, operation, input, [0, 0], Lengths::Named);
        comparison.compare(&call, LISTED)?;
    }
    for source in 0..owned.stations {
        let call = lend::call(random, Operation::Reach, input, [source, 0], Lengths::Named);
        comparison.compare(&call, LISTED)?;
    }
    for (source, destination) in pairs(owned.stations) {
        let stations = [source, destination];
        let call = |random: &mut Random, operation: Operation| {
            lend::call(random, operation, input, stations, Lengths::Named)
        };
        for operation in [Operation::Pair, Operation::ThroughSet, Operation::Foremost] {
            comparison.compare(&call(random, operation), LISTED)?;
        }
        let mut verdict = call(random, Operation::Verdict);
        verdict.lent.list = owned.list(source, destination).concat();
        comparison.compare(&verdict, LISTED)?;
        let first = comparison.compare(&call(random, Operation::FirstWay), LISTED)?;
        let mut next = call(random, Operation::NextWay);
        next.lent.narrow = first.lent.narrow;
        comparison.compare(&next, LISTED)?;
    }
    Ok(())
}

/// Every operation, with every station up to n, every number of sources up to n + 1, and every position.
pub fn every_call(
    comparison: &mut Comparison,
    random: &mut Random,
    owned: &Owned,
) -> Result<(), Difference> {
    every_number(comparison, random, owned)?;
    every_position(comparison, random, owned)?;
    for operation in OPERATIONS {
        if matches!(
            operation,
            Operation::Loads | Operation::PartialLoads | Operation::StruckOut
        ) {
            continue;
        }
        let named = |place: usize| match operation.arguments() > place {
            true => 0..owned.stations + 1,
            false => 0..1,
        };
        for source in named(0) {
            for destination in named(1) {
                let stations = [source, destination];
                let input = owned.input();
                let call = lend::call(random, operation, input, stations, Lengths::Named);
                comparison.compare(&call, LISTED)?;
            }
        }
    }
    Ok(())
}

/// Next way on every buffer of T positions, one of them no record's, for every pair.
pub fn every_buffer(
    comparison: &mut Comparison,
    random: &mut Random,
    owned: &Owned,
) -> Result<(), Difference> {
    let records = owned.bytes.len() / RECORD_BYTES;
    let buffers = all_lists(owned.slots, records as u16 + 1);
    for (source, destination) in pairs(owned.stations) {
        let (operation, stations) = (Operation::NextWay, [source, destination]);
        let input = owned.input();
        let mut call = lend::call(random, operation, input, stations, Lengths::Named);
        for buffer in &buffers {
            call.lent.narrow[0].copy_from_slice(buffer);
            comparison.compare(&call, LISTED)?;
        }
    }
    Ok(())
}

/// Through set on every set, for every pair.
pub fn every_set(
    comparison: &mut Comparison,
    random: &mut Random,
    owned: &Owned,
) -> Result<(), Difference> {
    for (source, destination) in pairs(owned.stations) {
        let (operation, stations) = (Operation::ThroughSet, [source, destination]);
        let input = owned.input();
        let mut call = lend::call(random, operation, input, stations, Lengths::Named);
        for members in all_sets(owned.stations) {
            call.lent.sets[0] = set_of(owned.stations, &members);
            comparison.compare(&call, LISTED)?;
        }
    }
    Ok(())
}

/// A turnaround: mostly 1, some in their limits, some outside of them.
fn any_turnaround(random: &mut Random) -> usize {
    [1, 1, 1, 1, 2, 3, 16, 0, 17][random.below(9)]
}

/// An h: mostly 255, some small, some outside of its limits or below most turnarounds.
fn any_keeping(random: &mut Random) -> usize {
    [KEPT, KEPT, KEPT, KEPT, 1, 2, 3, 0, 256][random.below(9)]
}

/// The operations, from 0 to 1 and with a number of sources or a position drawn.
fn each_operation(
    comparison: &mut Comparison,
    random: &mut Random,
    input: PlanInput,
) -> Result<(), Difference> {
    for operation in OPERATIONS {
        let arguments = arguments(random, operation, input, [0, 1]);
        let call = lend::call(random, operation, input, arguments, Lengths::Named);
        comparison.compare(&call, LISTED)?;
    }
    Ok(())
}

/// Every subset of the records of 3 stations and 1 slot and of 2 stations and 2 slots, with n up to 4
/// and T up to 3.
fn every_size(comparison: &mut Comparison, random: &mut Random) -> Result<(), Difference> {
    for owned in [all_plans(3, 1), all_plans(2, 2)].concat() {
        for stations in 0..=4 {
            for slots in 0..=3 {
                let bytes = &owned.bytes;
                let input = PlanInput {
                    bytes,
                    stations,
                    slots,
                    turnaround: any_turnaround(random),
                    keeping: any_keeping(random),
                };
                each_operation(comparison, random, input)?;
            }
        }
    }
    Ok(())
}

/// All records with slots up to T + 1 and stations up to n, valid or not.
fn all_records(stations: u16, slots: u16) -> Vec<Record> {
    let mut records = Vec::new();
    for slot in 0..=slots + 1 {
        for a in 0..=stations {
            records.extend((0..=stations).map(|b| (slot, a, b)));
        }
    }
    records
}

/// Every plan of up to two such records in any order, for 3 stations and 2 slots, and every plan of
/// three possible records in any order.
fn every_sequence(comparison: &mut Comparison, random: &mut Random) -> Result<(), Difference> {
    let mut plans: Vec<Vec<Record>> = Vec::new();
    let all = all_records(3, 2);
    for one in &all {
        plans.push(vec![*one]);
        plans.extend(all.iter().map(|other| vec![*one, *other]));
    }
    let possible = possible_records(3, 2);
    for choice in all_lists(3, possible.len() as u16) {
        plans.push(choice.iter().map(|at| possible[usize::from(*at)]).collect());
    }
    for records in plans {
        let owned = Owned::new(3, 2, &records).turning(any_turnaround(random));
        let owned = owned.keeping_for(any_keeping(random));
        each_operation(comparison, random, owned.input())?;
    }
    Ok(())
}

/// Plan A with every number of bytes, and, with g = 1, with every length of each table up to two entries more.
fn every_length(comparison: &mut Comparison, random: &mut Random) -> Result<(), Difference> {
    let bytes = plan_bytes(&PLAN_A);
    for length in 0..=bytes.len() {
        let input = PlanInput {
            bytes: &bytes[..length],
            stations: 5,
            slots: 4,
            turnaround: any_turnaround(random),
            keeping: any_keeping(random),
        };
        each_operation(comparison, random, input)?;
    }
    let owned = Owned::new(5, 4, &PLAN_A).turning(1);
    for operation in OPERATIONS {
        let named = lend::named(operation, owned.input());
        for width in 0..named.len() {
            for table in 0..named[width].len() {
                for length in 0..=named[width][table] + 2 {
                    let mut lengths = named.clone();
                    lengths[width][table] = length;
                    let input = owned.input();
                    let arguments = arguments(random, operation, input, [0, 4]);
                    let mut call = lend::call(random, operation, input, arguments, Lengths::Named);
                    call.lent = lend::of_lengths(random, &lengths, owned.stations);
                    band::draw(random, &mut call);
                    comparison.compare(&call, LISTED)?;
                }
            }
        }
    }
    Ok(())
}

/// Through set on plan A with every byte at every place of the set, and behind it.
fn every_set_byte(comparison: &mut Comparison, random: &mut Random) -> Result<(), Difference> {
    let owned = Owned::new(5, 4, &PLAN_A);
    for destination in [1, 4] {
        let (operation, stations) = (Operation::ThroughSet, [0, destination]);
        let input = owned.input();
        let mut call = lend::call(random, operation, input, stations, Lengths::Named);
        for place in 0..8 {
            for byte in 0..=255 {
                call.lent.sets[0] = vec![0, 1, 1, 0, 1, 1, 0, 1];
                call.lent.sets[0][place] = byte;
                comparison.compare(&call, LISTED)?;
            }
        }
    }
    Ok(())
}

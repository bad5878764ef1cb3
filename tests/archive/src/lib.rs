//! The functions of libjoftaki_c.a on the lister's types.

use lister::band::Taking;
use lister::plan::{Ends, PlanInput};
use lister::reach::ReachTables;
use lister::ways::Way;

pub use joftaki::read_record;

/// The plan of an input, as the archive's functions take it.
fn named(input: PlanInput<'_>) -> joftaki::PlanInput<'_> {
    joftaki::PlanInput {
        bytes: input.bytes,
        stations: input.stations,
        slots: input.slots,
        turnaround: input.turnaround,
        keeping: input.keeping,
    }
}

/// Operation 1, on the plan, n and T of an input.
pub fn check(input: PlanInput) -> u32 {
    joftaki::check(named(input))
}

/// Operation 2.
pub fn reach(input: PlanInput, source: usize, tables: ReachTables) -> u32 {
    let tables = joftaki::ReachTables {
        appearance_hops: tables.appearance_hops,
        appearance_counts: tables.appearance_counts,
        station_hops: tables.station_hops,
        station_counts: tables.station_counts,
    };
    joftaki::reach(named(input), source, tables)
}

/// Operation 3, on the n and T of an input.
pub fn row(
    input: PlanInput,
    station: usize,
    offset: &mut u64,
    length: &mut u64,
    table: &[u64],
) -> u32 {
    joftaki::row(named(input), station, offset, length, table)
}

/// The sister of operation 3, on the n and T of an input.
pub fn row_number(input: PlanInput, station: usize, table: &[u64]) -> u32 {
    joftaki::row_number(named(input), station, table)
}

/// Operation 4.
pub fn pair(
    input: PlanInput,
    ends: Ends,
    hops: &mut u64,
    count: &mut u64,
    through: &mut [u64],
    work: &mut [u64],
) -> u32 {
    joftaki::pair(named(input), ends, hops, count, through, work)
}

/// Operation 5.
pub fn loads(input: PlanInput, pairs: &mut [u64], loads: &mut [u64], work: &mut [u64]) -> u32 {
    joftaki::loads(named(input), pairs, loads, work)
}

/// Document 02's loads over the sources below a number.
pub fn partial_loads(
    input: PlanInput,
    sources: usize,
    pairs: &mut [u64],
    loads: &mut [u64],
    work: &mut [u64],
) -> u32 {
    joftaki::partial_loads(named(input), sources, pairs, loads, work)
}

/// Loads, with a record for each station.
pub fn drawn_loads(
    input: PlanInput,
    pairs: &mut [u64],
    loads: &mut [u64],
    records: &mut [u8],
    work: &mut [u64],
) -> u32 {
    joftaki::drawn_loads(named(input), pairs, loads, records, work)
}

/// Operation 6.
pub fn busiest(input: PlanInput, station: &mut u64, work: &mut [u64]) -> u32 {
    joftaki::busiest(named(input), station, work)
}

/// Document 02's operation on a pair and a set.
pub fn through_set(
    input: PlanInput,
    ends: Ends,
    count: &mut u64,
    set: &[u8],
    work: &mut [u64],
) -> u32 {
    joftaki::through_set(named(input), ends, count, set, work)
}

/// Document 02's operation on a pair's shortest foremost paths; the values are slot, hops and count.
pub fn foremost(
    input: PlanInput,
    ends: Ends,
    values: [&mut u64; 3],
    through: &mut [u64],
    work: &mut [u64],
) -> u32 {
    joftaki::foremost(named(input), ends, values, through, work)
}

/// Document 02's verdict on a list of positions.
pub fn verdict(
    input: PlanInput,
    ends: Ends,
    verdict: &mut u32,
    list: &[u16],
    work: &mut [u64],
) -> u32 {
    joftaki::verdict(named(input), ends, verdict, list, work)
}

/// Document 02's taking of a plan into a band or out of it, on the plan, n and T of an input.
pub fn take(taking: Taking, input: PlanInput, table: &mut [u16]) -> u32 {
    let taking = match taking {
        Taking::In(channels) => joftaki::Taking::In(channels),
        Taking::Out => joftaki::Taking::Out,
    };
    joftaki::take(taking, named(input), table)
}

/// Document 02's contact that is struck out; the value is the number of pairs that use it.
pub fn struck_out(
    input: PlanInput,
    position: usize,
    pairs: &mut u64,
    changes: &mut [i64],
    work: &mut [u64],
) -> u32 {
    joftaki::struck_out(named(input), position, pairs, changes, work)
}

/// Operations 7 and 8.
pub fn way(
    way: Way,
    input: PlanInput,
    ends: Ends,
    hops: &mut u64,
    buffer: &mut [u16],
    work: &mut [u64],
) -> u32 {
    let way = match way {
        Way::First => joftaki::Way::First,
        Way::Next => joftaki::Way::Next,
    };
    joftaki::way(way, named(input), ends, hops, buffer, work)
}

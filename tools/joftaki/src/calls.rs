//! The functions with slices.

use crate::declared::*;
use crate::{Ends, PlanInput, ReachTables, Taking, Way};

/// A slot of size_t.
fn size(slot: &mut u64) -> *mut usize {
    (slot as *mut u64).cast()
}

/// Calls a function that takes g: the plan, n, T and g come first.
///
/// SAFETY of each call: each pointer comes with the length of its own slice, or is of a slot that the
/// caller lends.
macro_rules! on_plan {
    ($function:expr, $input:expr $(, $argument:expr)*) => {
        unsafe {
            $function(
                $input.bytes.as_ptr(),
                $input.bytes.len(),
                $input.stations,
                $input.slots,
                $input.turnaround
                $(, $argument)*
            )
        }
    };
}

/// Calls a function that takes g and h: the plan, n, T, g and h come first.
macro_rules! on_terms {
    ($function:expr, $input:expr $(, $argument:expr)*) => {
        on_plan!($function, $input, $input.keeping $(, $argument)*)
    };
}

/// Operation 1, on the plan, n and T of an input.
pub fn check(input: PlanInput) -> u32 {
    let (plan, n, t) = (input.bytes, input.stations, input.slots);
    // SAFETY: as above.
    unsafe { joftaki_check(plan.as_ptr(), plan.len(), n, t) }
}

/// Operation 2.
pub fn reach(input: PlanInput, source: usize, tables: ReachTables) -> u32 {
    on_terms!(
        joftaki_reach,
        input,
        source,
        tables.appearance_hops.as_mut_ptr(),
        tables.appearance_hops.len(),
        tables.appearance_counts.as_mut_ptr(),
        tables.appearance_counts.len(),
        tables.station_hops.as_mut_ptr(),
        tables.station_hops.len(),
        tables.station_counts.as_mut_ptr(),
        tables.station_counts.len()
    )
}

/// Operation 3, on the n and T of an input.
pub fn row(
    input: PlanInput,
    station: usize,
    offset: &mut u64,
    length: &mut u64,
    table: &[u64],
) -> u32 {
    let (n, t) = (input.stations, input.slots);
    let (offset, length) = (size(offset), size(length));
    // SAFETY: as above.
    unsafe { joftaki_row(table.as_ptr(), table.len(), n, t, station, offset, length) }
}

/// The sister of operation 3, on the n and T of an input.
pub fn row_number(input: PlanInput, station: usize, table: &[u64]) -> u32 {
    let (n, t) = (input.stations, input.slots);
    // SAFETY: as above.
    unsafe { joftaki_row_number(table.as_ptr(), table.len(), n, t, station) }
}

/// Operation 4.
pub fn pair(
    input: PlanInput,
    (source, destination): Ends,
    hops: &mut u64,
    count: &mut u64,
    through: &mut [u64],
    work: &mut [u64],
) -> u32 {
    on_terms!(
        joftaki_pair,
        input,
        source,
        destination,
        size(hops),
        count,
        through.as_mut_ptr(),
        through.len(),
        work.as_mut_ptr(),
        work.len()
    )
}

/// Operation 5.
pub fn loads(input: PlanInput, pairs: &mut [u64], loads: &mut [u64], work: &mut [u64]) -> u32 {
    on_terms!(
        joftaki_loads,
        input,
        pairs.as_mut_ptr(),
        pairs.len(),
        loads.as_mut_ptr(),
        loads.len(),
        work.as_mut_ptr(),
        work.len()
    )
}

/// Document 02's loads over the sources below a number.
pub fn partial_loads(
    input: PlanInput,
    sources: usize,
    pairs: &mut [u64],
    loads: &mut [u64],
    work: &mut [u64],
) -> u32 {
    on_terms!(
        joftaki_partial_loads,
        input,
        sources,
        pairs.as_mut_ptr(),
        pairs.len(),
        loads.as_mut_ptr(),
        loads.len(),
        work.as_mut_ptr(),
        work.len()
    )
}

/// Operation 6.
pub fn busiest(input: PlanInput, station: &mut u64, work: &mut [u64]) -> u32 {
    let (area, length) = (work.as_mut_ptr(), work.len());
    on_terms!(joftaki_busiest, input, size(station), area, length)
}

/// Document 02's operation on a pair and a set.
pub fn through_set(
    input: PlanInput,
    (source, destination): Ends,
    count: &mut u64,
    set: &[u8],
    work: &mut [u64],
) -> u32 {
    on_terms!(
        joftaki_through_set,
        input,
        source,
        destination,
        count,
        set.as_ptr(),
        set.len(),
        work.as_mut_ptr(),
        work.len()
    )
}

/// Document 02's operation on a pair's shortest foremost paths; the values are slot, hops and count.
pub fn foremost(
    input: PlanInput,
    (source, destination): Ends,
    [arrival, hops, count]: [&mut u64; 3],
    through: &mut [u64],
    work: &mut [u64],
) -> u32 {
    on_plan!(
        joftaki_foremost,
        input,
        source,
        destination,
        size(arrival),
        size(hops),
        count,
        through.as_mut_ptr(),
        through.len(),
        work.as_mut_ptr(),
        work.len()
    )
}

/// Document 02's verdict on a list of positions.
pub fn verdict(
    input: PlanInput,
    (source, destination): Ends,
    verdict: &mut u32,
    list: &[u16],
    work: &mut [u64],
) -> u32 {
    on_terms!(
        joftaki_verdict,
        input,
        source,
        destination,
        verdict,
        list.as_ptr(),
        list.len(),
        work.as_mut_ptr(),
        work.len()
    )
}

/// Document 02's taking of a plan into a band or out of it, on the plan, n and T of an input.
pub fn take(taking: Taking, input: PlanInput, table: &mut [u16]) -> u32 {
    let (plan, n, t) = (input.bytes, input.stations, input.slots);
    let (plan, plan_length) = (plan.as_ptr(), plan.len());
    let (table, length) = (table.as_mut_ptr(), table.len());
    match taking {
        // SAFETY: as above.
        Taking::In(c) => unsafe { joftaki_take_in(plan, plan_length, n, t, c, table, length) },
        // SAFETY: as above.
        Taking::Out => unsafe { joftaki_take_out(plan, plan_length, n, t, table, length) },
    }
}

/// Document 02's contact that is struck out; the value is the number of pairs that use it.
pub fn struck_out(
    input: PlanInput,
    position: usize,
    pairs: &mut u64,
    changes: &mut [i64],
    work: &mut [u64],
) -> u32 {
    on_terms!(
        joftaki_struck_out,
        input,
        position,
        pairs,
        changes.as_mut_ptr(),
        changes.len(),
        work.as_mut_ptr(),
        work.len()
    )
}

/// Operations 7 and 8.
pub fn way(
    way: Way,
    input: PlanInput,
    (source, destination): Ends,
    hops: &mut u64,
    buffer: &mut [u16],
    work: &mut [u64],
) -> u32 {
    let function = match way {
        Way::First => joftaki_first_way,
        Way::Next => joftaki_next_way,
    };
    on_terms!(
        function,
        input,
        source,
        destination,
        size(hops),
        buffer.as_mut_ptr(),
        buffer.len(),
        work.as_mut_ptr(),
        work.len()
    )
}

/// Loads, with a record for each station.
pub fn drawn_loads(
    input: PlanInput,
    pairs: &mut [u64],
    loads: &mut [u64],
    records: &mut [u8],
    work: &mut [u64],
) -> u32 {
    on_terms!(
        joftaki_drawn_loads,
        input,
        pairs.as_mut_ptr(),
        pairs.len(),
        loads.as_mut_ptr(),
        loads.len(),
        records.as_mut_ptr(),
        records.len(),
        work.as_mut_ptr(),
        work.len()
    )
}

/// What is read back of bytes; the values are station, load and pairs.
pub fn read_record(bytes: &[u8], [station, load, pairs]: [&mut u64; 3]) -> u32 {
    let (bytes, length) = (bytes.as_ptr(), bytes.len());
    // SAFETY: the pointer comes with the length of its slice, and the slots are lent.
    unsafe { joftaki_read_record(bytes, length, size(station), load, pairs) }
}

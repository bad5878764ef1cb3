//! Operation 3, row, and its sister.

use std::ops::Range;

use crate::answer::{number, Answer};
use crate::causes::{known_station, long_enough};
use crate::lent::{appearances, place};
use crate::plan::within_limits;

/// The part of the caller's table that holds the station's T+1 entries; empty on refusal.
pub fn row(stations: usize, slots: usize, station: usize, table: &mut [u64]) -> &mut [u64] {
    let part = row_part(stations, slots, station, table.len()).unwrap_or_default();
    &mut table[part]
}

/// The refusal number of row on the same arguments, 0 where row is accepted.
pub fn row_number(stations: usize, slots: usize, station: usize, table: &[u64]) -> u8 {
    number(&row_part(stations, slots, station, table.len()))
}

/// The places of the station's entries, or the first of causes 1, 6 and 8.
fn row_part(stations: usize, slots: usize, station: usize, length: usize) -> Answer<Range<usize>> {
    within_limits(stations, slots)?;
    known_station(stations, station)?;
    long_enough(length, appearances(stations, slots))?;
    Ok(place(slots, station, 0)..place(slots, station, slots) + 1)
}

//! The causes of the call from 6 to 9 and from 11 to 17; those of the plan are in `plan`, 10 in `ways`.

use crate::answer::{Answer, CallFault};
use crate::plan::{Ends, Terms, KEPT, LEAST_TURNAROUND, MOST_TURNAROUND};

/// The cause, if it holds.
fn unless(holds: bool, cause: CallFault) -> Answer<()> {
    match holds {
        true => Err(cause.into()),
        false => Ok(()),
    }
}

/// Cause 12: g is inside its limits. It is looked at after 5 and before 6.
pub fn known_turnaround(turnaround: usize) -> Answer<()> {
    let fits = (LEAST_TURNAROUND..=MOST_TURNAROUND).contains(&turnaround);
    unless(!fits, CallFault::Turnaround)
}

/// Cause 14: h is at least g, and inside its limits. It is looked at after 12 and before 13.
pub fn known_keeping(terms: Terms) -> Answer<()> {
    let fits = (terms.turnaround..=KEPT).contains(&terms.keeping);
    unless(!fits, CallFault::Keeping)
}

/// Cause 13: the number of sources is at most n. It is looked at after 14 and before 6.
pub fn known_sources(stations: usize, sources: usize) -> Answer<()> {
    unless(sources > stations, CallFault::Sources)
}

/// Cause 6: a named station is below n.
pub fn known_station(stations: usize, station: usize) -> Answer<()> {
    unless(station >= stations, CallFault::Station)
}

/// Causes 6 and 7: both stations are below n, and they differ.
pub fn known_pair(stations: usize, (source, destination): Ends) -> Answer<()> {
    known_station(stations, source)?;
    known_station(stations, destination)?;
    unless(source == destination, CallFault::SameStation)
}

/// Cause 8: a lent table has at least its named entries.
pub fn long_enough(length: usize, named: usize) -> Answer<()> {
    unless(length < named, CallFault::TooShort)
}

/// Cause 11: each byte of a set is 0 or 1. It is looked at after 8 and before 9.
pub fn set_bytes(set: &[u8]) -> Answer<()> {
    let wrong = |byte: &u8| ![0, 1].contains(byte);
    unless(set.iter().any(wrong), CallFault::SetByte)
}

/// Cause 15: no entry after a taking in is above c. It is looked at after 8.
pub fn enough_channels(channels: u16, after: &[i64]) -> Answer<()> {
    let over = |entry: &i64| *entry > i64::from(channels);
    unless(after.iter().any(over), CallFault::Channels)
}

/// Cause 16: no entry after a taking out is below 0. It is looked at after 8.
pub fn none_untaken(after: &[i64]) -> Answer<()> {
    unless(after.iter().any(|entry| *entry < 0), CallFault::Untaken)
}

/// Cause 17: the position is that of a record. It is looked at after 8 and before 9.
pub fn known_position(records: usize, position: usize) -> Answer<()> {
    unless(position >= records, CallFault::Position)
}

/// Cause 9: none of the counts of a source is over the limit.
pub fn few_enough(limit: u64, mut counts: impl Iterator<Item = u128>) -> Answer<()> {
    let over = |count: u128| count > u128::from(limit);
    unless(counts.any(over), CallFault::TooMany)
}

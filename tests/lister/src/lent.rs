//! Lent memory: the length of each named part.

use crate::answer::Answer;
use crate::causes::long_enough;

/// The named entries of a table of appearances: n × (T+1).
pub fn appearances(stations: usize, slots: usize) -> usize {
    stations * (slots + 1)
}

/// The place of the appearance (station, slot) in such a table.
pub fn place(slots: usize, station: usize, slot: usize) -> usize {
    station * (slots + 1) + slot
}

/// The named entries of the scratch, document 01's work area: 4 × n × (T+1).
pub fn scratch_length(stations: usize, slots: usize) -> usize {
    4 * appearances(stations, slots)
}

/// Cause 8 for each lent table, in order; where none is too short, the named parts are then 0.
pub fn clear(tables: &mut [(&mut [u64], usize)]) -> Answer<()> {
    for (table, named) in tables.iter() {
        long_enough(table.len(), *named)?;
    }
    for (table, named) in tables {
        table[..*named].fill(0);
    }
    Ok(())
}

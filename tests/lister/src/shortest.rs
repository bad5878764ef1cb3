//! The shortest of a list of walks, document 01's least.

use crate::answer::Answer;
use crate::plan::{Appearance, Plan};
use crate::reach::{Entries, Entry};
use crate::walk::{walks_from, Walk};

/// The hops of an appearance or a station that no walk reaches, and foremost's slot without a walk.
pub const NO_WALK: u16 = 65535;

/// The walks with the fewest hops.
fn shortest<'a>(walks: impl Iterator<Item = &'a Walk>) -> Vec<&'a Walk> {
    let mut walks: Vec<&Walk> = walks.collect();
    if let Some(fewest) = walks.iter().map(|walk| walk.hops()).min() {
        walks.retain(|walk| walk.hops() == fewest);
    }
    walks
}

/// The shortest walks to the appearance (station, slot).
pub fn walks_to_appearance(walks: &[Walk], station: usize, slot: usize) -> Vec<&Walk> {
    let reaches = |walk: &&Walk| walk.reached() == Appearance { station, slot };
    shortest(walks.iter().filter(reaches))
}

/// The shortest walks to a station, in whatever slot, document 01's complete list: ordered by their
/// positions.
pub fn shortest_walks(walks: &[Walk], destination: usize) -> Vec<&Walk> {
    let reaches = |walk: &&Walk| walk.end() == destination;
    let mut walks = shortest(walks.iter().filter(reaches));
    walks.sort_by(|one, other| one.positions.cmp(&other.positions));
    walks
}

/// The shortest foremost walks to a station: of those that reach it in the earliest slot in which any
/// does, the shortest, ordered by their positions.
pub fn foremost_walks(walks: &[Walk], destination: usize) -> Vec<&Walk> {
    let reaches = walks.iter().filter(|walk| walk.end() == destination);
    let Some(earliest) = reaches.map(|walk| walk.slot).min() else {
        return Vec::new();
    };
    let mut walks = walks_to_appearance(walks, destination, earliest);
    walks.sort_by(|one, other| one.positions.cmp(&other.positions));
    walks
}

/// The positions of each walk of a list.
pub fn positions_of(walks: &[&Walk]) -> Vec<Vec<u16>> {
    walks.iter().map(|walk| walk.positions.clone()).collect()
}

/// The hops that the walks of a list have in common; 65535 for the empty list.
pub fn hops_of(walks: &[&Walk]) -> u16 {
    walks.first().map_or(NO_WALK, |walk| walk.hops() as u16)
}

/// The count: how many walks the list has.
pub fn count_of(walks: &[&Walk]) -> u64 {
    walks.len() as u64
}

/// The entries of listed walks from a source.
pub fn entries_of(plan: &Plan, walks: &[Walk]) -> Entries {
    let entry = |walks: Vec<&Walk>| Entry {
        hops: hops_of(&walks),
        count: count_of(&walks).into(),
    };
    let to_appearance = |station, slot| entry(walks_to_appearance(walks, station, slot));
    let to_station = |station| entry(shortest_walks(walks, station));
    Entries::new(plan, to_appearance, to_station)
}

/// All walks from a source, unless an appearance or station has more than `limit` shortest ones.
pub fn walks_within(limit: u64, plan: &Plan, source: usize) -> Answer<Vec<Walk>> {
    let walks = walks_from(plan, source);
    entries_of(plan, &walks).within(limit)?;
    Ok(walks)
}

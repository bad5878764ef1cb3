//! Reach by numbers of walks. This is no plain lister: it lists no walk.
//!
//! For each number of hops it adds up how many walks of so many hops, shortest or not, end at each
//! appearance, in 128 bits. It serves plans with too many walks to be listed; the tests compare it
//! with the plain lister on small plans. A number over 2^128−1 is held as 2^128−1.

use crate::numbers::{Appearances, Walks};
use crate::plan::{Appearance, Plan};
use crate::reach::{Entries, Entry, NO_ENTRY};

/// The entry of the shortest walks.
fn entry(shortest: Option<(usize, u128)>) -> Entry {
    shortest.map_or(NO_ENTRY, |(hops, count)| Entry {
        hops: hops as u16,
        count,
    })
}

/// The entries of an accepted plan from a source.
pub fn entries(plan: &Plan, source: usize) -> Entries {
    let numbered = Appearances::new(plan);
    let walks = Walks::from_source(&numbered, source);
    let to_appearance = |station: usize, slot: usize| {
        let at = numbered.known(Appearance { station, slot });
        entry(at.and_then(|at| walks.to_appearance(at)))
    };
    let to_station = |station: usize| entry(walks.to_station(station));
    Entries::new(plan, to_appearance, to_station)
}

//! Pairs by numbers of walks that avoid a station. This is no plain lister: it lists no walk.
//!
//! From a source it adds up, for each station, the shortest walks that never go on from it; the others to
//! a destination have the station interior. A walk counts once for a station however often it calls
//! there, which a sum over the station's appearances does not see. The module serves plans whose units
//! drop readings; the tests compare it with the plain lister, and with `fast_pairs` where none is dropped.

use crate::numbers::{Appearances, Walks};
use crate::pair::{PairValues, Paired, PairsFrom};
use crate::plan::Plan;
use crate::shortest::NO_WALK;

/// A sender in a slot, for walks of one number of hops.
struct Sending {
    station: usize,
    /// The appearances of the sender that are one hop before.
    from: Vec<usize>,
    /// The appearances of the hearers to which the walks that send now are shortest.
    to: Vec<usize>,
}

/// The shortest walks from a source to all appearances, by their last hops.
struct Shortest<'a> {
    appearances: &'a Appearances,
    source: usize,
    /// The fewest hops to each appearance.
    hops: Vec<Option<usize>>,
    /// Those of fewer hops first.
    sendings: Vec<Sending>,
}

impl<'a> Shortest<'a> {
    fn new(walks: &Walks<'a>, source: usize) -> Shortest<'a> {
        let appearances = walks.appearances;
        let places = 0..appearances.all.len();
        let hops = places.map(|at| walks.to_appearance(at).map(|(hops, _)| hops));
        let mut shortest = Shortest {
            appearances,
            source,
            hops: hops.collect(),
            sendings: Vec::new(),
        };
        for hops in 1..walks.of_hops.len() {
            for station in 0..appearances.of_station.len() {
                let row = appearances.of_station[station].clone();
                let sendings = row.filter_map(|at| shortest.sending(station, at, hops));
                let mut sendings: Vec<Sending> = sendings.collect();
                shortest.sendings.append(&mut sendings);
            }
        }
        shortest
    }

    /// The sender of an appearance, for walks of so many hops; none if no such walk is shortest.
    fn sending(&self, station: usize, at: usize, hops: usize) -> Option<Sending> {
        let reached = |at: &usize, hops: usize| self.hops[*at] == Some(hops);
        let leads = self.appearances.leads[at].iter().copied();
        let to: Vec<usize> = leads.filter(|to| reached(to, hops)).collect();
        if to.is_empty() {
            return None;
        }
        let start = self.appearances.of_station[station].start;
        let earlier = [start]
            .into_iter()
            .chain(self.appearances.followed[at].clone());
        let from: Vec<usize> = earlier.filter(|from| reached(from, hops - 1)).collect();
        (!from.is_empty()).then_some(Sending { station, from, to })
    }

    /// For each appearance, the shortest walks to it that never go on from a station.
    fn avoiding(&self, avoided: usize) -> Vec<u128> {
        let mut walks = self.appearances.empty_walk(self.source);
        let others = self.sendings.iter();
        for sending in others.filter(|sending| sending.station != avoided) {
            let sent: u128 = sending.from.iter().map(|from| walks[*from]).sum();
            for to in &sending.to {
                walks[*to] += sent;
            }
        }
        walks
    }
}

/// The pairs from a source to some destinations; no appearance and no station has too many walks.
fn pairs(walks: &Walks, source: usize, destinations: &[usize]) -> Vec<Paired> {
    let appearances = walks.appearances;
    let stations = appearances.of_station.len();
    let found = destinations.iter().map(|destination| {
        let (hops, count) = walks
            .to_station(*destination)
            .unwrap_or((NO_WALK.into(), 0));
        let values = PairValues {
            hops: hops as u16,
            count: count as u64,
        };
        let through = vec![0; stations];
        Paired { values, through }
    });
    let mut found: Vec<Paired> = found.collect();
    let shortest = Shortest::new(walks, source);
    for station in (0..stations).filter(|station| *station != source) {
        let avoiding = shortest.avoiding(station);
        for (paired, destination) in found.iter_mut().zip(destinations) {
            if *destination != station {
                let hops = Some(paired.values.hops.into());
                let ends = appearances.of_station[*destination].clone();
                let ends = ends.filter(|at| shortest.hops[*at] == hops);
                let avoided: u128 = ends.map(|at| avoiding[at]).sum();
                paired.through[station] = paired.values.count - avoided as u64;
            }
        }
    }
    found
}

/// The values of pairs by numbers of walks that avoid a station.
pub fn pairs_from(limit: u64, plan: &Plan) -> PairsFrom<'_> {
    let appearances = Appearances::new(plan);
    Box::new(move |source, destinations| {
        let walks = Walks::from_source(&appearances, source);
        walks.few_enough(limit)?;
        Ok(pairs(&walks, source, destinations))
    })
}

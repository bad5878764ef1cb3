//! Walks, listed from the definition.

use crate::plan::{Appearance, Plan};

/// A walk, document 01's chain: contacts by position, and the stations it visits.
#[derive(Clone, Debug, PartialEq, Eq)]
pub struct Walk {
    /// The position of each hop's contact.
    pub positions: Vec<u16>,
    /// The source, then the station that each hop reaches.
    pub stations: Vec<usize>,
    /// The slot of the last contact; 0 for the empty walk.
    pub slot: usize,
}

impl Walk {
    /// The empty walk: 0 hops, at the source in slot 0.
    pub fn empty(source: usize) -> Walk {
        Walk {
            positions: Vec::new(),
            stations: vec![source],
            slot: 0,
        }
    }

    /// The number of hops, document 01's legs.
    pub fn hops(&self) -> usize {
        self.positions.len()
    }

    pub fn source(&self) -> usize {
        self.stations[0]
    }

    /// The station where the walk ends.
    pub fn end(&self) -> usize {
        self.stations[self.stations.len() - 1]
    }

    /// The appearance where the walk ends.
    pub fn reached(&self) -> Appearance {
        Appearance {
            station: self.end(),
            slot: self.slot,
        }
    }

    /// This walk and one hop more: the contact leads on from the end, and may follow it.
    pub fn extended(&self, plan: &Plan, position: usize) -> Option<Walk> {
        let contact = plan.contacts[position];
        let Appearance { station, slot } = self.reached().step(plan.terms, contact)?;
        let mut longer = self.clone();
        longer.positions.push(position as u16);
        longer.stations.push(station);
        longer.slot = slot;
        Some(longer)
    }

    /// A path, document 01's way: the walk visits no station twice.
    pub fn is_path(&self) -> bool {
        let repeats = |at: usize| self.stations[..at].contains(&self.stations[at]);
        !(0..self.stations.len()).any(repeats)
    }

    /// Interior, document 01's inside: visited, and neither source nor destination.
    pub fn has_interior(&self, station: usize) -> bool {
        self.stations.contains(&station) && station != self.source() && station != self.end()
    }
}

/// All walks from a source: the empty one, then those of 1 hop, of 2 hops, and so on.
pub fn walks_from(plan: &Plan, source: usize) -> Vec<Walk> {
    let mut all = Vec::new();
    let mut current = vec![Walk::empty(source)];
    while !current.is_empty() {
        let mut longer = Vec::new();
        for walk in &current {
            for position in 0..plan.contacts.len() {
                longer.extend(walk.extended(plan, position));
            }
        }
        all.append(&mut current);
        current = longer;
    }
    all
}

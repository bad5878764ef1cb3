//! Numbers of walks by their hops, for the modules that list no walk.
//!
//! A number over 2^128−1 is held as 2^128−1. This is over every limit; where nothing is refused, a
//! number so held is of walks that are not shortest and begin no shortest one.

use std::collections::BTreeSet;
use std::ops::Range;

use crate::answer::Answer;
use crate::causes::few_enough;
use crate::plan::{Appearance, Contact, Plan};

/// The sender and the hearer of a contact, in its slot.
fn ends(contact: &Contact) -> [Appearance; 2] {
    let slot = contact.slot;
    [contact.sender, contact.hearer].map(|station| Appearance { station, slot })
}

/// Each station in the slots of its contacts, whether it sends or hears, and its start in slot 0. They
/// are numbered by station, then by slot. Where a station only sends, no walk ends.
#[derive(Clone, Debug)]
pub struct Appearances {
    pub all: Vec<Appearance>,
    /// The numbers of each station's appearances; the first is its start.
    pub of_station: Vec<Range<usize>>,
    /// The hearers of the contacts that each appearance's station sends in its slot.
    pub leads: Vec<Vec<usize>>,
    /// The senders of the contacts that each appearance's station hears in its slot.
    pub hears: Vec<Vec<usize>>,
    /// For each appearance, those of its station but the start that contacts in its slot may follow.
    pub followed: Vec<Range<usize>>,
    /// For each appearance, those of its station in whose slots contacts may follow it.
    following: Vec<Range<usize>>,
}

/// The sum of the entries of a range, carried from one range to the next.
struct Carried<'a> {
    entries: &'a [u128],
    range: Range<usize>,
    sum: u128,
}

impl Carried<'_> {
    /// No entry yet.
    fn new(entries: &[u128]) -> Carried<'_> {
        Carried {
            entries,
            range: 0..0,
            sum: 0,
        }
    }

    /// The sum over the next range: where it has all of the one before, only the rest is added.
    fn over(&mut self, range: &Range<usize>) -> u128 {
        if range.start > self.range.start || self.range.end > range.end {
            self.range = range.start..range.start;
            self.sum = 0;
        }
        let before = &self.entries[range.start..self.range.start];
        let behind = &self.entries[self.range.end..range.end];
        let more = before.iter().chain(behind).copied();
        self.sum = more.fold(self.sum, u128::saturating_add);
        self.range = range.clone();
        self.sum
    }
}

impl Appearances {
    /// The appearances of an accepted plan.
    pub fn new(plan: &Plan) -> Appearances {
        let starts = (0..plan.stations).map(Appearance::start);
        let all = starts.chain(plan.contacts.iter().flat_map(ends));
        let all: BTreeSet<Appearance> = all.collect();
        let mut appearances = Appearances {
            leads: vec![Vec::new(); all.len()],
            hears: vec![Vec::new(); all.len()],
            of_station: Vec::new(),
            followed: Vec::new(),
            following: Vec::new(),
            all: all.into_iter().collect(),
        };
        for station in 0..plan.stations {
            let row = appearances.number(Appearance::start(station))
                ..appearances.number(Appearance::start(station + 1));
            for at in row.clone() {
                let slot = appearances.all[at].slot;
                let earlier = |other| plan.terms.follows(other, slot);
                let followed = appearances.with_slots(row.start + 1..at, earlier);
                let later = |other| plan.terms.follows(slot, other);
                let following = appearances.with_slots(at + 1..row.end, later);
                appearances.followed.push(followed);
                appearances.following.push(following);
            }
            appearances.of_station.push(row);
        }
        for contact in &plan.contacts {
            let [from, to] = ends(contact).map(|end| appearances.number(end));
            appearances.leads[from].push(to);
            appearances.hears[to].push(from);
        }
        appearances
    }

    /// The appearances of a part of a row whose slots have a property; they stand together.
    fn with_slots(&self, part: Range<usize>, has: impl Fn(usize) -> bool) -> Range<usize> {
        let mut those = part.filter(|at| has(self.all[*at].slot));
        match those.next() {
            Some(first) => first..those.last().unwrap_or(first) + 1,
            None => 0..0,
        }
    }

    /// The number of an appearance.
    pub fn number(&self, appearance: Appearance) -> usize {
        self.all.partition_point(|other| *other < appearance)
    }

    /// The appearance that the contact at a position brings after an appearance.
    pub fn stepped(&self, plan: &Plan, at: usize, position: usize) -> Option<usize> {
        let contact = plan.contacts.get(position)?;
        let reached = self.all[at].step(plan.terms, *contact)?;
        Some(self.number(reached))
    }

    /// The number of an appearance, if contacts can bring it.
    pub fn known(&self, appearance: Appearance) -> Option<usize> {
        self.all.binary_search(&appearance).ok()
    }

    /// For each appearance of a station but the start, the sum of the entries of those that contacts in
    /// its slot may follow: the start among them.
    fn sums_before<'a>(
        &'a self,
        station: usize,
        entries: &'a [u128],
    ) -> impl Iterator<Item = (usize, u128)> + 'a {
        let row = self.of_station[station].clone();
        let start = entries[row.start];
        let mut earlier = Carried::new(entries);
        row.skip(1).map(move |at| {
            let sum = earlier.over(&self.followed[at]);
            (at, sum.saturating_add(start))
        })
    }

    /// For each appearance of a station, the last one first, the sum of the entries of those in whose
    /// slots contacts may follow it.
    pub fn sums_after<'a>(
        &'a self,
        station: usize,
        entries: &'a [u128],
    ) -> impl Iterator<Item = (usize, u128)> + 'a {
        let row = self.of_station[station].clone();
        let mut later = Carried::new(entries);
        row.rev()
            .map(move |at| (at, later.over(&self.following[at])))
    }

    /// The walks of one hop more, for each appearance.
    fn longer(&self, walks: &[u128]) -> Vec<u128> {
        let mut longer: Vec<u128> = vec![0; walks.len()];
        for station in 0..self.of_station.len() {
            for (at, earlier) in self.sums_before(station, walks) {
                for to in &self.leads[at] {
                    longer[*to] = longer[*to].saturating_add(earlier);
                }
            }
        }
        longer
    }

    /// The walks of no hop from a source.
    pub fn empty_walk(&self, source: usize) -> Vec<u128> {
        let mut walks = vec![0; self.all.len()];
        walks[self.of_station[source].start] = 1;
        walks
    }

    /// How many walks there are from a source, of any number of hops.
    pub fn number_of_walks(&self, source: usize) -> u128 {
        let mut all: u128 = 0;
        let mut walks = self.empty_walk(source);
        while walks.iter().any(|count| *count > 0) {
            all = walks.iter().copied().fold(all, u128::saturating_add);
            walks = self.longer(&walks);
        }
        all
    }

    /// The completions of no hop: 1 for each appearance of the destination.
    pub fn ended(&self, destination: usize) -> Vec<u128> {
        let mut completions = vec![0; self.all.len()];
        completions[self.of_station[destination].clone()].fill(1);
        completions
    }

    /// The completions of one hop more, for each appearance.
    pub fn longer_completions(&self, completions: &[u128]) -> Vec<u128> {
        let add = |sum: u128, to: &usize| sum.saturating_add(completions[*to]);
        let leaving = self.leads.iter().map(|leads| leads.iter().fold(0, add));
        let leaving: Vec<u128> = leaving.collect();
        let mut longer = vec![0; self.all.len()];
        for station in 0..self.of_station.len() {
            for (at, later) in self.sums_after(station, &leaving) {
                longer[at] = later;
            }
        }
        longer
    }
}

/// The walks from one source: for each number of hops, how many end at each appearance, shortest or
/// not.
#[derive(Clone, Debug)]
pub struct Walks<'a> {
    pub appearances: &'a Appearances,
    pub of_hops: Vec<Vec<u128>>,
}

/// Enters the appearances that have walks; tells whether one of them is new.
fn enter(reached: &mut [bool], walks: &[u128]) -> bool {
    let mut new = false;
    for (reached, count) in reached.iter_mut().zip(walks) {
        new |= *count > 0 && !*reached;
        *reached |= *count > 0;
    }
    new
}

impl Walks<'_> {
    /// The walks from a source, up to the most hops that a shortest walk to an appearance has. A
    /// shortest walk without its last hop is shortest to its own appearance; so where no appearance
    /// is new at a number of hops, none is at a larger one.
    pub fn from_source(appearances: &Appearances, source: usize) -> Walks<'_> {
        let mut walks = appearances.empty_walk(source);
        let mut reached = vec![false; walks.len()];
        let mut of_hops = Vec::new();
        while enter(&mut reached, &walks) {
            let longer = appearances.longer(&walks);
            of_hops.push(walks);
            walks = longer;
        }
        Walks {
            appearances,
            of_hops,
        }
    }

    /// The hops and the number of the shortest walks that end in a part of the appearances.
    pub fn shortest(&self, part: Range<usize>) -> Option<(usize, u128)> {
        let add = |sum: u128, count: &u128| sum.saturating_add(*count);
        let counts = self.of_hops.iter().enumerate();
        let mut counts =
            counts.map(|(hops, walks)| (hops, walks[part.clone()].iter().fold(0, add)));
        counts.find(|(_, count)| *count > 0)
    }

    /// The shortest walks to an appearance: their hops and their number.
    pub fn to_appearance(&self, at: usize) -> Option<(usize, u128)> {
        self.shortest(at..at + 1)
    }

    /// The shortest walks to a station: their hops and their number.
    pub fn to_station(&self, station: usize) -> Option<(usize, u128)> {
        self.shortest(self.appearances.of_station[station].clone())
    }

    /// Foremost's cause 9: no appearance has more than `limit` shortest walks.
    pub fn few_to_appearances(&self, limit: u64) -> Answer<()> {
        let appearances = 0..self.appearances.all.len();
        let shortest = appearances.filter_map(|at| self.to_appearance(at));
        few_enough(limit, shortest.map(|(_, count)| count))
    }

    /// Cause 9: no appearance and no station has more than `limit` shortest walks.
    pub fn few_enough(&self, limit: u64) -> Answer<()> {
        self.few_to_appearances(limit)?;
        let stations = 0..self.appearances.of_station.len();
        let shortest = stations.filter_map(|station| self.to_station(station));
        few_enough(limit, shortest.map(|(_, count)| count))
    }
}

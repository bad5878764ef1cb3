//! Units that drop readings: both means against a plain enumeration of the walks.

use std::collections::BTreeMap;

use super::asked::{values_of, Asked, BOTH};
use super::support::{all_plans, lowest_of_the_largest, pairs, stale_plans, tiny_plans, Owned};
use crate::fast_avoiding;
use crate::fast_pairs::by_completions;
use crate::lists::near;
use crate::loads::Load;
use crate::means::COUNT_LIMIT;
use crate::pair::Paired;
use crate::plan::{Contact, Ends, Plan, Terms};
use crate::random::Random;
use crate::reach::{reach_named, Tables};
use crate::set_cases::all_sets;
use crate::shortest::NO_WALK;
use crate::stale::{detours, random_stale_plan, small_terms};
use crate::verdicts::verdict_on;

/// A walk by its contacts, and what C-21 says of two neighbours: the next sender is the hearer before, and its
/// slot is t + g to t + h.
pub struct Naive {
    terms: Terms,
    contacts: Vec<Contact>,
    stations: usize,
    /// All walks of a hop or more by their positions, from each source.
    walks: Vec<Vec<Vec<u16>>>,
}

impl Naive {
    pub fn new(plan: &Plan) -> Naive {
        let mut naive = Naive {
            terms: plan.terms,
            contacts: plan.contacts.clone(),
            stations: plan.stations,
            walks: Vec::new(),
        };
        for source in 0..plan.stations {
            let mut walks = Vec::new();
            for (first, contact) in plan.contacts.iter().enumerate() {
                if contact.sender == source {
                    naive.extend(vec![first as u16], &mut walks);
                }
            }
            naive.walks.push(walks);
        }
        naive
    }

    /// Enters a walk and all that begin with it.
    fn extend(&self, walk: Vec<u16>, walks: &mut Vec<Vec<u16>>) {
        let Terms {
            turnaround: g,
            keeping: h,
        } = self.terms;
        let last = self.contacts[usize::from(walk[walk.len() - 1])];
        for (position, contact) in self.contacts.iter().enumerate() {
            let wait = contact.slot as isize - last.slot as isize;
            let in_time = g as isize <= wait && wait <= h as isize;
            if in_time && contact.sender == last.hearer {
                self.extend([&walk[..], &[position as u16]].concat(), walks);
            }
        }
        walks.push(walk);
    }

    /// The stations that hear on a walk, one after another.
    fn hearers(&self, walk: &[u16]) -> Vec<usize> {
        let contact = |position: &u16| self.contacts[usize::from(*position)];
        walk.iter()
            .map(|position| contact(position).hearer)
            .collect()
    }

    /// Where and when a walk ends.
    fn end(&self, walk: &[u16]) -> (usize, usize) {
        let last = self.contacts[usize::from(walk[walk.len() - 1])];
        (last.hearer, last.slot)
    }

    /// The shortest walks of a pair in order.
    pub fn list(&self, (source, destination): Ends) -> Vec<Vec<u16>> {
        let mut list = self.walks[source].clone();
        list.retain(|walk| self.end(walk).0 == destination);
        let fewest = list.iter().map(Vec::len).min();
        list.retain(|walk| Some(walk.len()) == fewest);
        list.sort();
        list
    }

    /// How many walks of a list have a member that is neither end among their stations.
    fn touched(&self, ends: Ends, list: &[Vec<u16>], members: &[usize]) -> u64 {
        let interior = |station: &usize| *station != ends.0 && *station != ends.1;
        let members: Vec<usize> = members.iter().copied().filter(interior).collect();
        let meets = |walk: &&Vec<u16>| {
            let hearers = self.hearers(walk);
            members.iter().any(|member| hearers.contains(member))
        };
        list.iter().filter(meets).count() as u64
    }

    pub fn paired(&self, ends: Ends, list: &[Vec<u16>]) -> Paired {
        let through = (0..self.stations).map(|station| self.touched(ends, list, &[station]));
        Paired {
            values: values_of(list),
            through: through.collect(),
        }
    }

    /// Reach's tables.
    fn tables(&self, source: usize, slots: usize) -> Tables {
        let mut tables = Tables::marked(reach_named(self.stations, slots), 0);
        let mut hops: BTreeMap<(usize, usize), Vec<usize>> = BTreeMap::new();
        hops.insert((source, 0), vec![0]);
        for walk in &self.walks[source] {
            hops.entry(self.end(walk)).or_default().push(walk.len());
        }
        let entry = |hops: &[usize]| {
            let fewest = hops.iter().min().copied();
            let count = hops.iter().filter(|hops| Some(**hops) == fewest).count();
            (fewest.map_or(NO_WALK, |hops| hops as u16), count as u64)
        };
        for station in 0..self.stations {
            let mut all = Vec::new();
            for slot in 0..=slots {
                let hops = hops.get(&(station, slot)).cloned().unwrap_or_default();
                let place = station * (slots + 1) + slot;
                (
                    tables.appearance_hops[place],
                    tables.appearance_counts[place],
                ) = entry(&hops);
                all.extend(hops);
            }
            (tables.station_hops[station], tables.station_counts[station]) = entry(&all);
        }
        tables
    }

    /// Pairs and load of each station over the sources below a number.
    pub fn loads(&self, sources: usize) -> Vec<Load> {
        let mut loads = vec![Load::default(); self.stations];
        for ends in pairs(self.stations).filter(|ends| ends.0 < sources) {
            let list = self.list(ends);
            for (station, entry) in loads.iter_mut().enumerate() {
                let through = self.touched(ends, &list, &[station]);
                if through > 0 {
                    entry.pairs += 1;
                    entry.load += (through << 32) / list.len() as u64;
                }
            }
        }
        loads
    }
}

/// What a comparison with the plain enumeration has seen.
#[derive(Debug, Default)]
struct Seen {
    pairs: usize,
    /// Pairs with a shortest walk that calls twice, and three times, at a station.
    twice: usize,
    thrice: usize,
    /// Pairs on which a sum of products is no through count.
    products: usize,
}

/// How often a walk calls at the station at which it calls most often.
fn most_calls(hearers: &[usize]) -> usize {
    let calls = |station: &usize| hearers.iter().filter(|hearer| *hearer == station).count();
    hearers.iter().map(calls).max().unwrap_or(0)
}

/// Compares all answers of both means with the plain enumeration; sets and verdicts where asked.
fn assert_enumerated(owned: &Owned, with_sets: bool, seen: &mut Seen) {
    let plan = owned.plan();
    let naive = Naive::new(&plan);
    let contacts = plan.contacts.len() as u16;
    for source in 0..owned.stations {
        let tables = (0, naive.tables(source, owned.slots));
        let others: Vec<usize> = (0..owned.stations).filter(|end| *end != source).collect();
        let lists = others.iter().map(|end| naive.list((source, *end)));
        let lists: Vec<Vec<Vec<u16>>> = lists.collect();
        let expected = others.iter().zip(&lists);
        let expected = expected.map(|(end, list)| naive.paired((source, *end), list));
        let expected: Vec<Paired> = expected.collect();
        for means in BOTH {
            assert_eq!(Asked(means, owned).reach(source), tables, "{owned:?}");
            let found = means.pairs_from(&plan)(source, &others);
            assert_eq!(found.as_ref(), Ok(&expected), "{owned:?}");
        }
        let avoiding = fast_avoiding::pairs_from(COUNT_LIMIT, &plan)(source, &others);
        assert_eq!(avoiding.as_ref(), Ok(&expected), "{owned:?}");
        let sums = by_completions(COUNT_LIMIT, &plan)(source, &others).unwrap();
        for (place, destination) in others.iter().enumerate() {
            let (ends, list) = ((source, *destination), &lists[place]);
            seen.pairs += 1;
            let calls = list.iter().map(|walk| most_calls(&naive.hearers(walk)));
            let calls = calls.max().unwrap_or(0);
            seen.twice += usize::from(calls == 2);
            seen.thrice += usize::from(calls > 2);
            let differs = sums[place] != expected[place];
            seen.products += usize::from(differs);
            assert_eq!(differs, calls > 1, "{owned:?}");
            for means in BOTH {
                let asked = Asked(means, owned);
                assert_eq!(asked.listing(ends).as_ref(), Ok(list), "{owned:?}");
                if with_sets {
                    for members in all_sets(owned.stations) {
                        let touched = naive.touched(ends, list, &members);
                        assert_eq!(asked.set(ends, &members), Ok(touched), "{owned:?}");
                    }
                    for (words, other) in near(list, contacts) {
                        let expected = verdict_on(list, &other);
                        let verdict = asked.verdict(ends, &other);
                        assert_eq!(verdict, Ok(expected), "{words}, {owned:?}");
                    }
                }
            }
        }
    }
    for means in BOTH {
        let asked = Asked(means, owned);
        for sources in 0..=owned.stations {
            assert_eq!(asked.loads(sources), Ok(naive.loads(sources)), "{owned:?}");
        }
        let busiest = lowest_of_the_largest(&naive.loads(owned.stations));
        assert_eq!(asked.busiest(), Ok(busiest), "{owned:?}");
    }
}

#[test]
fn tiny_plans_are_as_enumerated() {
    let mut plans = all_plans(2, 4);
    plans.extend(all_plans(2, 5).into_iter().step_by(5));
    plans.extend(all_plans(3, 2).into_iter().step_by(41));
    plans.extend(
        tiny_plans()
            .into_iter()
            .filter(|plan| plan.slots == 3)
            .step_by(37),
    );
    let mut seen = Seen::default();
    for (index, owned) in plans.into_iter().enumerate() {
        for (turnaround, keeping) in small_terms() {
            let owned = owned.clone().turning(turnaround).keeping_for(keeping);
            assert_enumerated(&owned, index % 7 == 0, &mut seen);
        }
    }
    assert!(seen.pairs > 10_000 && seen.twice == 0, "{seen:?}");
}

#[test]
fn plans_with_detours_are_as_enumerated() {
    let mut seen = Seen::default();
    for (index, owned) in detours().into_iter().enumerate() {
        for (turnaround, keeping) in small_terms() {
            let owned = owned.clone().turning(turnaround).keeping_for(keeping);
            assert_enumerated(&owned, index % 31 == 0, &mut seen);
        }
    }
    assert!(seen.twice > 1000 && seen.thrice > 50, "{seen:?}");
    assert_eq!(seen.products, seen.twice + seen.thrice);
}

#[test]
fn drawn_plans_are_as_enumerated() {
    let mut random = Random::new(21);
    let mut seen = Seen::default();
    for round in 0..1500 {
        let owned = random_stale_plan(&mut random);
        assert_enumerated(&owned, round % 10 == 0, &mut seen);
    }
    assert!(seen.twice > 5, "{seen:?}");
}

/// A shortest walk comes back neither to its source nor to its destination before its end.
#[test]
fn shortest_walks_call_at_their_ends_once() {
    let mut twice = 0;
    for owned in stale_plans() {
        let plan = owned.plan();
        let naive = Naive::new(&plan);
        for ends in pairs(owned.stations) {
            for walk in owned.list(ends.0, ends.1) {
                let hearers = naive.hearers(&walk);
                let calls = |station| hearers.iter().filter(|hearer| **hearer == station).count();
                assert_eq!((calls(ends.0), calls(ends.1)), (0, 1), "{owned:?}");
                twice += usize::from(most_calls(&hearers) > 1);
            }
        }
    }
    assert!(twice > 100, "{twice}");
}

/// The shortest walks by units that keep the latest reading alone: a hop leaves an appearance only where its
/// station hears nothing later before.
fn latest_alone(owned: &Owned, ends: Ends) -> Vec<Vec<u16>> {
    let naive = Naive::new(&owned.plan());
    let walks = &naive.walks[ends.0];
    let contact = |position: &u16| naive.contacts[usize::from(*position)];
    let heard_later = |walk: &Vec<u16>| {
        let mut hops = walk
            .windows(2)
            .map(|two| (contact(&two[0]), contact(&two[1])));
        hops.any(|(before, next)| {
            let between = |other: &Vec<u16>| {
                let (station, slot) = naive.end(other);
                station == before.hearer && before.slot < slot && slot < next.slot
            };
            walks.iter().any(between)
        })
    };
    let mut list = walks.clone();
    list.retain(|walk| naive.end(walk).0 == ends.1 && !heard_later(walk));
    let fewest = list.iter().map(Vec::len).min();
    list.retain(|walk| Some(walk.len()) == fewest);
    list.sort();
    list
}

/// 1 hears in slot 1 with one hop and in slot 2 with two, and sends in slot 3: 2 hops, not 3. And 1 hears in
/// slots 1, 2 and 3 and sends in 4 with h = 2: two walks, not one.
#[test]
fn more_than_the_latest_reading_is_kept() {
    let records = [(1, 0, 1), (1, 0, 2), (2, 2, 1), (3, 1, 3), (4, 1, 3)];
    let owned = Owned::new(4, 4, &records).keeping_for(2);
    assert_eq!(owned.list(0, 3), [[0, 3]]);
    assert_eq!(latest_alone(&owned, (0, 3)), [[1, 2, 3], [1, 2, 4]]);
    let records = [(1, 0, 1), (2, 0, 1), (3, 0, 1), (4, 1, 2)];
    let owned = Owned::new(3, 4, &records).keeping_for(2);
    assert_eq!(owned.list(0, 2), [[1, 3], [2, 3]]);
    assert_eq!(latest_alone(&owned, (0, 2)), [[2, 3]]);
}

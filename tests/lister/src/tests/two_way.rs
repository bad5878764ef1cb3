//! The two-way rule, a reference for one comparison.
//!
//! An old plan has records (t, a, b) with a below b, and by the two-way rule each leads from a to b and
//! from b to a. What the old plan has by it, the doubled plan has by the rule of `plan`: hops, counts,
//! through counts, loads, busiest, foremost, and the lists. Slots rise strictly: the turnaround is 1.
//!
//! The lists are compared as they stand, each record's position replaced by its contact's. They have the
//! same order: where two paths part they are at one station, and of its contacts in one slot both plans
//! have the one with the smaller other station first.

use super::support::{lowest_of_the_largest, pairs, Owned};
use crate::cases::{doubled, plan_bytes, Record};
use crate::foremost::Foremost;
use crate::loads::{share, Load};
use crate::means::{Counting, COUNTED, COUNT_LIMIT};
use crate::one_way::ONE_WAY_PLANS;
use crate::pair::{paired, Paired};
use crate::plan::{contacts, Contact, Ends, Plan, Terms, KEPT, LEAST_TURNAROUND};
use crate::plans::{possible_meetings, subsets};
use crate::random::Random;
use crate::shortest::{entries_of, foremost_walks, positions_of, shortest_walks, NO_WALK};
use crate::walk::{walks_from, Walk};

/// The station to which a contact leads from a given one, by the two-way rule.
fn leads_both_ways(contact: &Contact, station: usize) -> Option<usize> {
    match (contact.sender, contact.hearer) {
        (one, other) if one == station => Some(other),
        (other, one) if one == station => Some(other),
        _ => None,
    }
}

/// All walks from a source by the two-way rule.
fn two_way_walks(old: &Plan, source: usize) -> Vec<Walk> {
    let mut walks = vec![Walk::empty(source)];
    let mut next = 0;
    while let Some(walk) = walks.get(next).cloned() {
        for (position, contact) in old.contacts.iter().enumerate() {
            let reached = leads_both_ways(contact, walk.end());
            if let Some(station) = reached.filter(|_| walk.slot < contact.slot) {
                let mut longer = walk.clone();
                longer.positions.push(position as u16);
                longer.stations.push(station);
                longer.slot = contact.slot;
                walks.push(longer);
            }
        }
        next += 1;
    }
    walks
}

/// An old plan, its walks by the two-way rule, and the doubled plan.
struct Compared {
    old: Plan,
    /// From each source.
    old_walks: Vec<Vec<Walk>>,
    owned: Owned,
    /// For each record of the doubled plan, the position of its contact in the old plan.
    old_positions: Vec<u16>,
}

impl Compared {
    /// The old plan of some records.
    fn new(stations: usize, slots: usize, records: &[Record]) -> Compared {
        let old = Plan {
            stations,
            slots,
            terms: Terms {
                turnaround: LEAST_TURNAROUND,
                keeping: KEPT,
            },
            contacts: contacts(&plan_bytes(records)).collect(),
        };
        let new = doubled(records);
        assert_eq!(new.len(), 2 * records.len());
        let old_position = |(slot, a, b): &Record| {
            let contact = (*slot, *a.min(b), *a.max(b));
            let position = records.iter().position(|record| *record == contact);
            position.expect("a contact of the old plan") as u16
        };
        Compared {
            old_walks: (0..stations).map(|s| two_way_walks(&old, s)).collect(),
            old,
            owned: Owned::new(stations, slots, &new),
            old_positions: new.iter().map(old_position).collect(),
        }
    }

    /// A list of the doubled plan by the positions of the old plan.
    fn mapped(&self, list: &[Vec<u16>]) -> Vec<Vec<u16>> {
        let old = |position: &u16| self.old_positions[usize::from(*position)];
        list.iter()
            .map(|path| path.iter().map(old).collect())
            .collect()
    }

    /// Hops and counts of appearances and stations.
    fn assert_reach(&self) {
        let new = self.owned.plan();
        for (source, old_walks) in self.old_walks.iter().enumerate() {
            let expected = entries_of(&self.old, old_walks);
            let listed = Counting::Listed.entries(&new, source);
            assert_eq!(listed, expected, "{:?}", self.old);
            let counted = Counting::Fast.entries(&new, source);
            assert_eq!(counted, expected, "{:?}", self.old);
        }
    }

    /// The list of a pair, its hops, count and through counts, and how many paths have one of two
    /// stations interior. Gives the values.
    fn assert_pair(&self, ends: Ends) -> Paired {
        let paths = shortest_walks(&self.old_walks[ends.0], ends.1);
        let list = self.mapped(&self.owned.list(ends.0, ends.1));
        assert_eq!(list, positions_of(&paths), "{:?}", self.old);
        let expected = paired(&self.old, &paths);
        let listed = self.owned.pair(COUNT_LIMIT, ends.0, ends.1);
        assert_eq!(listed.as_ref(), Ok(&expected), "{:?}", self.old);
        let counted = &COUNTED.pairs_from(&self.owned.plan())(ends.0, &[ends.1]).unwrap()[0];
        assert_eq!(counted, &expected, "{:?}", self.old);

        let members = [1, 2].map(|more| (ends.0 + more) % self.old.stations);
        let has_member = |path: &&&Walk| members.iter().any(|member| path.has_interior(*member));
        let touched = paths.iter().filter(has_member).count() as u64;
        assert_eq!(
            self.owned.touched(ends, &members),
            touched,
            "{:?}",
            self.old
        );
        expected
    }

    /// The earliest slot of a pair, and hops, count and through counts of the walks that arrive then.
    fn assert_foremost(&self, ends: Ends) {
        let walks = foremost_walks(&self.old_walks[ends.0], ends.1);
        let slot = walks.first().map_or(NO_WALK, |walk| walk.slot as u16);
        let expected = Foremost::new(slot, paired(&self.old, &walks));
        let found = self.owned.foremost(COUNT_LIMIT, ends);
        assert_eq!(found, Ok(expected), "{:?}", self.old);
    }

    /// All of it for every pair, then loads and busiest. Tells how many pairs have several paths, how many
    /// have a path and none back, and whether some load is above 0.
    fn assert_agrees(&self) -> [usize; 3] {
        self.assert_reach();
        let mut seen = [0; 3];
        let mut loads = vec![Load::default(); self.old.stations];
        for ends in pairs(self.old.stations) {
            let Paired { values, through } = self.assert_pair(ends);
            self.assert_foremost(ends);
            for (entry, through) in loads.iter_mut().zip(through) {
                if through > 0 {
                    entry.pairs += 1;
                    entry.load += share(through, values.count);
                }
            }
            let back = shortest_walks(&self.old_walks[ends.1], ends.0);
            seen[0] += usize::from(values.count > 1);
            seen[1] += usize::from(values.count > 0 && back.is_empty());
        }
        let found = self.owned.loads(COUNT_LIMIT);
        assert_eq!(found.as_ref(), Ok(&loads), "{:?}", self.old);
        let busiest = lowest_of_the_largest(&loads);
        let found = self.owned.busiest(COUNT_LIMIT);
        assert_eq!(found, Ok(busiest), "{:?}", self.old);
        seen[2] = usize::from(loads[busiest].load > 0);
        seen
    }
}

/// Adds up what comparisons have met.
fn add(seen: &mut [usize; 3], more: [usize; 3]) {
    for (seen, more) in seen.iter_mut().zip(more) {
        *seen += more;
    }
}

#[test]
fn plan_a_by_the_two_way_rule() {
    let records = [
        (1, 0, 1),
        (1, 0, 2),
        (2, 1, 3),
        (2, 2, 3),
        (3, 2, 3),
        (4, 3, 4),
    ];
    let plan_a = Compared::new(5, 4, &records);
    let paths = shortest_walks(&plan_a.old_walks[0], 4);
    assert_eq!(positions_of(&paths), [[0, 2, 5], [1, 3, 5], [1, 4, 5]]);
    assert_eq!(paired(&plan_a.old, &paths).through, [0, 1, 2, 3, 0]);
    assert_eq!(plan_a.owned.bytes, Owned::plan_a().bytes);
    plan_a.assert_agrees();
}

/// The plans of one direction tell the rule of `plan` from the two-way rule and from its reverse.
#[test]
fn one_way_plans_have_other_paths_by_other_rules() {
    let mut differ = [0; 2];
    for plan in ONE_WAY_PLANS {
        let (owned, last) = (plan.owned(), plan.last().into());
        let paths = |walks: Vec<Walk>, end: usize| positions_of(&shortest_walks(&walks, end));
        let two_way = |from, to| paths(two_way_walks(&owned.plan(), from), to);
        let mut reversed = owned.plan();
        for contact in &mut reversed.contacts {
            (contact.sender, contact.hearer) = (contact.hearer, contact.sender);
        }
        let backwards = |from, to| paths(walks_from(&reversed, from), to);
        let stated =
            |there: Vec<Vec<u16>>, back: Vec<Vec<u16>>| there == plan.there && back == plan.back;
        differ[0] += usize::from(!stated(two_way(0, last), two_way(last, 0)));
        differ[1] += usize::from(!stated(backwards(0, last), backwards(last, 0)));
    }
    assert_eq!(differ, [15, ONE_WAY_PLANS.len()]);
}

#[test]
fn all_small_old_plans_agree_with_their_doubled_ones() {
    let mut seen = [0; 3];
    for (stations, slots, step) in [(1, 2, 1), (2, 3, 1), (3, 3, 1), (4, 2, 2)] {
        let possible = possible_meetings(stations, slots);
        for records in subsets(&possible).step_by(step) {
            let compared = Compared::new(stations, slots, &records);
            add(&mut seen, compared.assert_agrees());
        }
    }
    assert!(seen.iter().all(|count| *count > 500), "{seen:?}");
}

#[test]
fn drawn_old_plans_agree_with_their_doubled_ones() {
    let mut random = Random::new(17);
    let mut seen = [0; 3];
    for _ in 0..2000 {
        let (stations, slots) = (random.between(2, 6), random.between(1, 5));
        let odds = random.between(2, 5);
        let mut records = possible_meetings(stations, slots);
        records.retain(|_| random.below(odds) == 0);
        let compared = Compared::new(stations, slots, &records);
        add(&mut seen, compared.assert_agrees());
    }
    assert!(seen.iter().all(|count| *count > 500), "{seen:?}");
}

//! Small plans with sets: those of reach-cases, and the valid ones of check-cases. The pairs with a
//! path of two hops or more have every set for n up to 3, two pairs of four stations too, and a set
//! drawn each otherwise; one pair that has no such path has the set of all stations.

use super::{all_sets, Case};
use crate::means::{COUNTED, COUNT_LIMIT};
use crate::pair_cases::{checked_plans, small_plans, LabelledPlan};
use crate::plan::read;
use crate::plans::pairs;
use crate::random::Random;
use crate::reach_cases::{other_length, outer_stations};

/// The seed of members, marks and lengths.
const SEED: u64 = 8;

pub fn cases() -> Vec<Case> {
    let mut random = Random::new(SEED);
    let mut cases = Vec::new();
    for (index, plan) in small_plans().iter().enumerate() {
        let mark = random.below(65536) as u16;
        for case in of_plan(&mut random, plan) {
            let case = case.marked(mark, 0);
            cases.push(match index % 4 {
                3 => with_lengths(&mut random, case),
                _ => case,
            });
        }
    }
    cases.extend(large_plans(&mut random));
    cases
}

/// The case with a set and a scratch of other lengths; the bytes behind the set are any.
fn with_lengths(random: &mut Random, case: Case) -> Case {
    let scratch = other_length(random, case.scratch);
    let length = other_length(random, case.set.len());
    let mut set = case.set.clone();
    set.resize_with(length, || random.number() as u8);
    case.of_set(set).lent(scratch)
}

/// Stations, each at one of the odds.
fn drawn(random: &mut Random, stations: usize) -> Vec<usize> {
    let odds = random.between(2, 4);
    (0..stations).filter(|_| random.below(odds) == 0).collect()
}

/// A source and a destination.
type Pair = (u16, u16);

/// The pairs with interior stations, and one without.
fn chosen_pairs(plan: &LabelledPlan) -> (Vec<Pair>, Option<Pair>) {
    let accepted = read(plan.owned().input()).expect("a valid plan");
    let mut pairs_from = COUNTED.within(COUNT_LIMIT).pairs_from(&accepted);
    let has_interior = |&(source, destination): &(usize, usize)| {
        let found = pairs_from(source, &[destination]).expect("few walks");
        found[0].through.iter().any(|through| *through > 0)
    };
    let (with, without): (Vec<_>, Vec<_>) = pairs(accepted.stations).partition(has_interior);
    let narrow = |(source, destination): (usize, usize)| (source as u16, destination as u16);
    (
        with.into_iter().map(narrow).collect(),
        without.first().copied().map(narrow),
    )
}

/// The cases of a small plan.
pub fn of_plan(random: &mut Random, plan: &LabelledPlan) -> Vec<Case> {
    let stations = usize::from(plan.sizes.0);
    let (with, without) = chosen_pairs(plan);
    let mut cases = Vec::new();
    for (place, ends) in with.into_iter().enumerate() {
        let sets: Vec<Vec<usize>> = match (stations, place) {
            (..=3, _) | (4, 0 | 1) => all_sets(stations).collect(),
            _ => vec![drawn(random, stations)],
        };
        cases.extend(sets.iter().map(|members| plan.through(ends, members)));
    }
    let all: Vec<usize> = (0..stations).collect();
    cases.extend(without.map(|ends| plan.through(ends, &all)));
    cases
}

/// The larger valid plans of check-cases: a pair both ways, with stations drawn.
fn large_plans(random: &mut Random) -> Vec<Case> {
    let mut plans = checked_plans();
    plans.retain(|plan| plan.sizes.0 > 6);
    let mut cases = Vec::new();
    for plan in plans {
        let ends: Vec<u16> = outer_stations(&plan.bytes).into_iter().collect();
        if let [first, last] = ends[..] {
            for ends in [(first, last), (last, first)] {
                let members = drawn(random, plan.sizes.0.into());
                cases.push(plan.through(ends, &members));
            }
        }
    }
    cases
}

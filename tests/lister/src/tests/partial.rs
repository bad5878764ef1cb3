//! Partial loads: plan A source by source, sums over the pairs of each source, cause 9, and the spans that
//! document 02 states.

use super::support::{random_plan, random_turned_plan, tiny_plans, turned_plans, Owned};
use crate::answer::number;
use crate::loads::{share, Load};
use crate::means::COUNT_LIMIT;
use crate::random::Random;
use crate::show::{partial_text, text_of};

/// One unit of a load is 1 / 2^32.
const WHOLE: u64 = 1 << 32;

fn load(pairs: u64, load: u64) -> Load {
    Load { pairs, load }
}

/// With g = 1: from 0 two pairs have stations 1, 2 and 3 interior; from 1 two pairs, and from 2 one, have station 3.
#[test]
fn plan_a_source_by_source() {
    let owned = Owned::plan_a().turning(1);
    let (first, second) = (load(2, 2863311530), load(2, 5726623060));
    for (sources, of_third) in [(1, 1), (2, 3), (3, 4), (4, 4), (5, 4)] {
        let third = load(of_third, of_third * WHOLE);
        let expected = [load(0, 0), first, second, third, load(0, 0)];
        let partial = owned.partial_loads(COUNT_LIMIT, sources).unwrap();
        assert_eq!(partial, expected, "{sources}");
    }
    let none = owned.partial_loads(COUNT_LIMIT, 0);
    assert_eq!(none, Ok(vec![load(0, 0); 5]));
    assert_eq!(number(&owned.partial_loads(COUNT_LIMIT, 6)), 13);
}

#[test]
fn shown_partial_loads() {
    let owned = Owned::plan_a().turning(1);
    let shown = "sources 2 span 51539607552\n\
                 pairs 0 2 2 3 0\n\
                 loads 0 2863311530 5726623060 12884901888 0\n";
    assert_eq!(text_of(partial_text(owned.input(), 2)), shown);
    assert_eq!(text_of(partial_text(owned.input(), 6)), "refused 13\n");
    let wrong = owned.turning(17);
    assert_eq!(text_of(partial_text(wrong.input(), 6)), "refused 12\n");
}

/// What the pairs from one source give each station.
fn given_by(owned: &Owned, source: usize) -> Vec<Load> {
    let mut given = vec![Load::default(); owned.stations];
    for destination in (0..owned.stations).filter(|station| *station != source) {
        let paired = owned.pair(COUNT_LIMIT, source, destination).unwrap();
        for (entry, through) in given.iter_mut().zip(paired.through) {
            entry.pairs += u64::from(through > 0);
            if through > 0 {
                entry.load += share(through, paired.values.count);
            }
        }
    }
    given
}

/// Asserts that each source adds what its pairs give, and that all of them give the loads; gives how many
/// sources add to a load that is above 0 already.
fn assert_added(owned: &Owned) -> usize {
    let mut sum = vec![Load::default(); owned.stations];
    let mut further = 0;
    for sources in 0..=owned.stations {
        let partial = owned.partial_loads(COUNT_LIMIT, sources).unwrap();
        assert_eq!(partial, sum, "{sources} {owned:?}");
        if sources == owned.stations {
            assert_eq!(owned.loads(COUNT_LIMIT), Ok(partial), "{owned:?}");
            return further;
        }
        let given = given_by(owned, sources);
        let adds = |(sum, given): (&Load, &Load)| sum.load > 0 && given.load > 0;
        further += usize::from(sum.iter().zip(&given).any(adds));
        for (sum, given) in sum.iter_mut().zip(given) {
            sum.pairs += given.pairs;
            sum.load += given.load;
        }
    }
    further
}

/// Asserts that the loads lie in the span of each number of sources, and that a larger number narrows it at
/// both ends.
fn assert_spans(owned: &Owned) {
    let n = owned.stations;
    let loads = owned.loads(COUNT_LIMIT).unwrap();
    let mut before: Option<Vec<Load>> = None;
    for sources in 0..=n {
        let more = |sources: usize| ((n - sources) * (n - 1)) as u64;
        let partial = owned.partial_loads(COUNT_LIMIT, sources).unwrap();
        for (part, full) in partial.iter().zip(&loads) {
            let most = load(
                part.pairs + more(sources),
                part.load + more(sources) * WHOLE,
            );
            assert!((part.pairs..=most.pairs).contains(&full.pairs), "{owned:?}");
            assert!((part.load..=most.load).contains(&full.load), "{owned:?}");
        }
        for (less, part) in before.iter().flatten().zip(&partial) {
            let (pairs, load) = (part.pairs - less.pairs, part.load - less.load);
            assert!(
                pairs < n as u64 && load <= (n as u64 - 1) * WHOLE,
                "{owned:?}"
            );
        }
        before = Some(partial);
    }
}

/// Plans of several kinds.
fn plans() -> Vec<Owned> {
    let mut random = Random::new(21);
    let mut plans = [1, 2]
        .map(|turnaround| Owned::plan_a().turning(turnaround))
        .to_vec();
    plans.extend(tiny_plans().into_iter().step_by(3));
    plans.extend(turned_plans().into_iter().step_by(3));
    plans.extend((0..300).map(|_| random_plan(&mut random)));
    plans.extend((0..100).map(|_| random_turned_plan(&mut random)));
    plans
}

#[test]
fn each_source_adds_its_pairs() {
    let further: usize = plans().iter().map(assert_added).sum();
    assert!(further > 500, "{further}");
}

#[test]
fn loads_lie_in_the_spans() {
    plans().iter().for_each(assert_spans);
}

/// 9 where a source below k has too many walks: not before it, and from it on for every k up to n.
#[test]
fn cause_9_looks_at_the_sources_below_k() {
    let mut seen = [0; 3];
    for (index, owned) in plans().iter().enumerate() {
        let limit = [1, 2, 3][index % 3];
        let too_many = |source: &usize| number(&owned.reach(limit, *source)) == 9;
        let first = (0..owned.stations).find(too_many);
        for sources in 0..=owned.stations + 1 {
            let refused = first.is_some_and(|first| first < sources);
            let expected = match sources > owned.stations {
                true => 13,
                false if refused => 9,
                false => 0,
            };
            let answer = owned.partial_loads(limit, sources);
            assert_eq!(number(&answer), expected, "{sources} {owned:?}");
        }
        match first {
            None => seen[0] += 1,
            Some(0) => seen[1] += 1,
            Some(_) => seen[2] += 1,
        }
    }
    assert!(seen.iter().all(|count| *count > 300), "{seen:?}");
}

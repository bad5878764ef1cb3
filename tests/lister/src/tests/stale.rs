//! Units that drop readings: the rule of following, plans by hand, and what holds where nothing is dropped.

use super::asked::{values_of, Asked, BOTH};
use super::support::{pairs, random_plan, random_turned_plan, shortest_paths, stale_plans, Owned};
use crate::fast_avoiding;
use crate::fast_pairs::by_completions;
use crate::lists::near;
use crate::loads::Load;
use crate::means::COUNT_LIMIT;
use crate::pair::Paired;
use crate::plan::{Ends, Plan, Terms, KEPT, MOST_TURNAROUND};
use crate::random::Random;
use crate::shortest::{positions_of, NO_WALK};
use crate::stale::{
    calls_twice, detours_around, drawn_stale_plans, random_stale_plan, some_detours, DETOUR,
    KNOWN_TERMS, STALE_PLANS, TWO_DETOURS, WRONG_TERMS,
};
use crate::verdicts::{verdict_on, Verdict};
use crate::walk::walks_from;

#[test]
fn the_rule_of_following() {
    for turnaround in 1..=MOST_TURNAROUND {
        for keeping in [turnaround, turnaround + 1, turnaround + 5, 30, KEPT] {
            let terms = Terms {
                turnaround,
                keeping,
            };
            for slot in 0..=60 {
                assert_eq!(terms.follows(0, slot), slot >= 1);
                for heard in 1..=60 {
                    let expected = heard + turnaround <= slot && slot <= heard + keeping;
                    assert_eq!(terms.follows(heard, slot), expected, "{terms:?}");
                }
            }
        }
    }
}

/// The sum of walks × completions of each station that is neither end.
fn products(owned: &Owned, (source, destination): Ends) -> Vec<u64> {
    let plan = owned.plan();
    let found = by_completions(COUNT_LIMIT, &plan)(source, &[destination]);
    found.unwrap().remove(0).through
}

#[test]
fn plans_by_hand_have_the_walks_stated() {
    for stale in STALE_PLANS {
        let (owned, ends) = (stale.owned(), (0, stale.last()));
        let walks: Vec<Vec<u16>> = stale.there.iter().map(|walk| walk.to_vec()).collect();
        let expected = Paired {
            values: values_of(&walks),
            through: stale.through.to_vec(),
        };
        for means in BOTH {
            let asked = Asked(means, &owned);
            assert_eq!(asked.pair(ends).as_ref(), Ok(&expected), "{}", stale.label);
            assert_eq!(asked.listing(ends).as_ref(), Ok(&walks), "{}", stale.label);
            for (words, list) in near(&walks, stale.records.len() as u16) {
                let verdict = asked.verdict(ends, &list);
                let expected = verdict_on(&walks, &list);
                assert_eq!(verdict, Ok(expected), "{}: {words}", stale.label);
            }
        }
        assert_eq!(products(&owned, ends), stale.products, "{}", stale.label);
        let kept = owned.clone().keeping_for(KEPT);
        assert_eq!(kept.list(0, ends.1), stale.kept, "{}", stale.label);
    }
}

/// The plans of the cases: detours whose T is around h, and drawn plans of which each second has a walk that calls
/// twice at a station.
#[test]
fn plans_of_the_cases_drop_readings() {
    let around = detours_around();
    for more in 0..=2 {
        let has = around
            .iter()
            .filter(|plan| plan.sizes.1 == plan.keeping + more);
        assert!(has.count() > 3, "T = h + {more}");
    }
    for plan in around {
        let list = plan.owned().list(0, 3);
        let hops = if plan.sizes.1 == plan.keeping + 2 {
            4
        } else {
            2
        };
        assert_eq!(list.iter().map(Vec::len).collect::<Vec<_>>(), [hops]);
    }
    for plans in drawn_stale_plans(24).chunks(2) {
        assert!(calls_twice(&plans[1].owned()), "{}", plans[1].label);
    }
    let twice = some_detours(61).into_iter();
    let twice = twice.filter(|plan| calls_twice(&plan.owned())).count();
    assert!(twice > 3, "{twice}");
    for (turnaround, keeping) in KNOWN_TERMS {
        assert!((turnaround..=255).contains(&keeping) && (1..=16).contains(&turnaround));
    }
    for (turnaround, keeping) in WRONG_TERMS {
        assert!(!(turnaround..=255).contains(&keeping) && (1..=16).contains(&turnaround));
    }
}

/// How many plans by hand have one of these: a sum of products that is no through count, through counts that
/// are not count × (hops − 1) together, and a walk where units that keep every reading have a shorter one.
#[test]
fn plans_by_hand_tell_walks_from_paths() {
    let plans = STALE_PLANS.iter();
    let other_products = plans.clone().filter(|plan| plan.calls_twice());
    assert_eq!(other_products.count(), 10);
    let other_sum = plans.clone().filter(|plan| {
        let values = values_of(
            &plan
                .there
                .iter()
                .map(|walk| walk.to_vec())
                .collect::<Vec<_>>(),
        );
        let total: u64 = plan.through.iter().sum();
        values.count > 0 && total != values.count * (u64::from(values.hops) - 1)
    });
    assert_eq!(other_sum.count(), 10);
    let longer = plans.filter(|plan| match (plan.there.first(), plan.kept.first()) {
        (Some(walk), Some(path)) => walk.len() > path.len(),
        _ => false,
    });
    assert_eq!(longer.count(), 11);
}

/// The detour with h = 1: its only walk from 0 to 3 is 0, 1, 2, 1, 3.
#[test]
fn a_walk_that_calls_twice_at_a_station() {
    let owned = Owned::new(4, 4, &DETOUR).keeping_for(1);
    for means in BOTH {
        let asked = Asked(means, &owned);
        let pair = asked.pair((0, 3)).unwrap();
        assert_eq!((pair.values.hops, pair.values.count), (4, 1));
        assert_eq!(pair.through, [0, 1, 1, 0]);
        for (members, touched) in [
            (&[][..], 0),
            (&[1], 1),
            (&[2], 1),
            (&[1, 2], 1),
            (&[0, 3], 0),
            (&[0, 1, 2, 3], 1),
        ] {
            assert_eq!(asked.set((0, 3), members), Ok(touched), "{members:?}");
        }
        let whole = |pairs: u64| Load {
            pairs,
            load: pairs << 32,
        };
        // 1 is interior from 0 to 2, from 0 to 3 and from 2 to 3, 2 from 0 to 3 alone
        let loads = [0, 3, 1, 0].map(whole);
        assert_eq!(asked.loads(4), Ok(loads.to_vec()));
        assert_eq!(asked.loads(1), Ok([0, 2, 1, 0].map(whole).to_vec()));
        assert_eq!(asked.busiest(), Ok(1));
        assert_eq!(asked.listing((0, 3)), Ok(vec![vec![0, 1, 2, 3]]));
        let verdict = |list: &[u16]| asked.verdict((0, 3), list).unwrap();
        assert_eq!(verdict(&[0, 1, 2, 3]), Verdict::Complete);
        assert_eq!(verdict(&[]), Verdict::Beginning);
        for list in [&[0, 3][..], &[0, 1, 2], &[0, 1, 2, 3, 0, 1, 2, 3]] {
            assert_eq!(verdict(list), Verdict::Wrong, "{list:?}");
        }
    }
    let walks = walks_from(&owned.plan(), 0);
    assert!(shortest_paths(&walks, 3).is_empty());
}

/// Two detours with h = 1: the only walk is 0, 1, 2, 1, 2, 1, 3. With h = 3 three walks have one detour each.
#[test]
fn a_walk_that_calls_three_times_at_a_station() {
    let owned = Owned::new(4, 6, &TWO_DETOURS).keeping_for(1);
    let longer = owned.clone().keeping_for(3);
    for means in BOTH {
        let asked = Asked(means, &owned);
        let pair = asked.pair((0, 3)).unwrap();
        assert_eq!((pair.values.hops, pair.values.count), (6, 1));
        assert_eq!(pair.through, [0, 1, 1, 0]);
        let asked = Asked(means, &longer);
        let pair = asked.pair((0, 3)).unwrap();
        assert_eq!((pair.values.hops, pair.values.count), (4, 3));
        assert_eq!(pair.through, [0, 3, 3, 0]);
        for (members, touched) in [(&[1][..], 3), (&[2], 3), (&[1, 2], 3), (&[0], 0)] {
            assert_eq!(asked.set((0, 3), members), Ok(touched), "{members:?}");
        }
        let verdict = |list: &[u16]| asked.verdict((0, 3), list).unwrap();
        let (one, two, three) = ([0, 1, 2, 5], [0, 1, 4, 5], [0, 3, 4, 5]);
        assert_eq!(verdict(&[one, two, three].concat()), Verdict::Complete);
        assert_eq!(verdict(&[one, two].concat()), Verdict::Beginning);
        assert_eq!(verdict(&one), Verdict::Beginning);
        assert_eq!(verdict(&[two, three].concat()), Verdict::Wrong);
    }
    assert_eq!(products(&owned, (0, 3)), [0, 3, 2, 0]);
    assert_eq!(products(&longer, (0, 3)), [0, 6, 3, 0]);
}

/// A walk twice at 1 and a path, of 4 hops each: of the sets, {1, 2} has one walk, {1, 3} both.
#[test]
fn sets_beside_a_walk_that_calls_twice() {
    let stale = STALE_PLANS.iter().find(|plan| plan.last() == 6).unwrap();
    let owned = stale.owned();
    for means in BOTH {
        let asked = Asked(means, &owned);
        for (members, touched) in [
            (&[1][..], 1),
            (&[1, 2], 1),
            (&[1, 3], 2),
            (&[3, 4, 5], 1),
            (&[1, 2, 3, 4, 5], 2),
            (&[0, 6], 0),
        ] {
            assert_eq!(asked.set((0, 6), members), Ok(touched), "{members:?}");
        }
    }
}

/// What paths in place of walks give with the detour and h = 1: there is none from 0 to 3, so the empty list is
/// complete, and 1 and 2 have a pair less each. With a path of 5 hops beside it, this is what a list of paths has.
#[test]
fn paths_give_other_answers() {
    let owned = Owned::new(4, 4, &DETOUR).keeping_for(1);
    let (plan, walk) = (owned.plan(), vec![vec![0, 1, 2, 3]]);
    let paths = positions_of(&shortest_paths(&walks_from(&plan, 0), 3));
    assert!(paths.is_empty());
    assert_eq!(owned.list(0, 3), walk);
    assert_eq!(verdict_on(&paths, &[]), Verdict::Complete);
    assert_eq!(verdict_on(&walk, &[]), Verdict::Beginning);
    let mut pairs_of_paths = [0; 4];
    for (source, destination) in pairs(4) {
        let walks = walks_from(&plan, source);
        let paths = shortest_paths(&walks, destination);
        for (station, pairs) in pairs_of_paths.iter_mut().enumerate() {
            *pairs += u64::from(paths.iter().any(|path| path.has_interior(station)));
        }
    }
    assert_eq!(pairs_of_paths, [0, 2, 0, 0]);
    let loads = owned.loads(COUNT_LIMIT).unwrap();
    let pairs_of_walks: Vec<u64> = loads.iter().map(|entry| entry.pairs).collect();
    assert_eq!(pairs_of_walks, [0, 3, 1, 0]);

    let stale = STALE_PLANS.iter().find(|plan| plan.last() == 7).unwrap();
    let walks = walks_from(&stale.owned().plan(), 0);
    assert_eq!(positions_of(&shortest_paths(&walks, 7)), [[1, 3, 5, 7, 8]]);
    assert_eq!(stale.owned().list(0, 7), [[0, 2, 4, 6]]);
}

/// C-15's sum with the detour: with h = 1 the through counts are 1 + 1 and count × (hops − 1) is 1 × 3; with
/// h = 3 they are 1 and 1 × 1.
#[test]
fn through_counts_need_not_add_up() {
    for (keeping, total, expected) in [(1, 2, 3), (2, 2, 3), (3, 1, 1), (KEPT, 1, 1)] {
        let owned = Owned::new(4, 4, &DETOUR).keeping_for(keeping);
        let Paired { values, through } = owned.pair(COUNT_LIMIT, 0, 3).unwrap();
        assert_eq!(through.iter().sum::<u64>(), total, "h {keeping}");
        let product = values.count * (u64::from(values.hops) - 1);
        assert_eq!(product, expected, "h {keeping}");
    }
}

/// Foremost keeps every reading: its walk has fewer hops than the pair's.
#[test]
fn foremost_may_have_fewer_hops_than_the_pair() {
    let owned = Owned::new(4, 4, &DETOUR).keeping_for(1);
    let foremost = owned.foremost(COUNT_LIMIT, (0, 3)).unwrap();
    let values = foremost.values;
    assert_eq!((values.slot, values.hops, values.count), (4, 2, 1));
    assert_eq!(foremost.through, [0, 1, 0, 0]);
    assert_eq!(owned.pair(COUNT_LIMIT, 0, 3).unwrap().values.hops, 4);
}

#[test]
fn foremost_is_that_of_units_that_keep_every_reading() {
    let mut others = 0;
    for owned in stale_plans() {
        let kept = owned.clone().keeping_for(KEPT);
        for ends in pairs(owned.stations) {
            let expected = kept.foremost(COUNT_LIMIT, ends);
            assert_eq!(owned.foremost(COUNT_LIMIT, ends), expected, "{owned:?}");
            let hops = |owned: &Owned| owned.list(ends.0, ends.1).first().map(Vec::len);
            others += usize::from(hops(&owned) != hops(&kept));
        }
    }
    assert!(others > 1000, "{others}");
}

/// Where T <= h + 1 the list is that of the shortest paths, both second counts agree, and all is as with h = 255.
#[test]
fn where_nothing_is_dropped_walks_are_paths() {
    let mut random = Random::new(22);
    let mut compared = 0;
    for round in 0..900 {
        let owned = match round % 3 {
            0 => random_plan(&mut random),
            1 => random_turned_plan(&mut random),
            _ => random_stale_plan(&mut random),
        };
        let least = owned.turnaround.max(owned.slots - 1);
        let owned = owned.keeping_for(least + random.below(2));
        let plan = owned.plan();
        assert!(plan.keeps_all());
        let kept = owned.clone().keeping_for(KEPT);
        for source in 0..owned.stations {
            let walks = walks_from(&plan, source);
            let others: Vec<usize> = (0..owned.stations).filter(|end| *end != source).collect();
            for end in &others {
                let list = owned.list(source, *end);
                assert_eq!(
                    list,
                    positions_of(&shortest_paths(&walks, *end)),
                    "{owned:?}"
                );
                assert_eq!(list, kept.list(source, *end), "{owned:?}");
                compared += list.len();
            }
            let avoiding = fast_avoiding::pairs_from(COUNT_LIMIT, &plan)(source, &others);
            let sums = by_completions(COUNT_LIMIT, &plan)(source, &others);
            assert_eq!(avoiding, sums, "{owned:?}");
        }
        assert_eq!(
            owned.loads(COUNT_LIMIT),
            kept.loads(COUNT_LIMIT),
            "{owned:?}"
        );
    }
    assert!(compared > 5000, "{compared}");
}

/// 1 hears in slot 1 and sends in slot T: the walk is there where T <= h + 1.
#[test]
fn slots_around_the_keeping() {
    for keeping in 1..=253 {
        for (slots, hops) in [(keeping, 2), (keeping + 1, 2), (keeping + 2, NO_WALK)] {
            let slot = slots as u16;
            if slot < 2 {
                continue;
            }
            let owned = Owned::new(3, slots, &[(1, 0, 1), (slot, 1, 2)]).keeping_for(keeping);
            assert_eq!(owned.plan().keeps_all(), hops == 2);
            for means in BOTH {
                let pair = Asked(means, &owned).pair((0, 2)).unwrap();
                assert_eq!(pair.values.hops, hops, "h {keeping}, T {slots}");
            }
        }
    }
}

/// The first hop may be in slot 254, whatever h is; the second is bound by h.
#[test]
fn the_first_hop_is_free() {
    for keeping in [1, 2, 16, 253, 254, KEPT] {
        let owned = Owned::new(3, 255, &[(254, 0, 1), (255, 1, 2)]).keeping_for(keeping);
        for means in BOTH {
            let pair = Asked(means, &owned).pair((0, 2)).unwrap();
            assert_eq!((pair.values.hops, pair.values.count), (2, 1));
        }
    }
}

/// Other rules of following: g, h, the slot of the appearance, and the contact's.
type Rule = fn(usize, usize, usize, usize) -> bool;

/// The rules that the plans by hand tell from the rule of `plan`.
const OTHER_RULES: [(&str, Rule); 5] = [
    ("nothing is dropped", |g, _, heard, slot| {
        slot > heard && (heard == 0 || heard + g <= slot)
    }),
    ("a slot longer", |g, h, heard, slot| {
        slot > heard && (heard == 0 || heard + g <= slot && slot <= heard + h + 1)
    }),
    ("a slot shorter", |g, h, heard, slot| {
        slot > heard && (heard == 0 || heard + g <= slot && slot < heard + h)
    }),
    ("the first hop is bound", |g, h, heard, slot| {
        slot > heard && slot <= heard + h && (heard == 0 || heard + g <= slot)
    }),
    ("no turnaround", |_, h, heard, slot| {
        slot > heard && (heard == 0 || slot <= heard + h)
    }),
];

/// The shortest walks of a pair by another rule.
fn list_by(rule: Rule, plan: &Plan, ends: Ends) -> Vec<Vec<u16>> {
    let Terms {
        turnaround,
        keeping,
    } = plan.terms;
    let mut current = vec![(Vec::new(), ends.0, 0)];
    while !current.is_empty() {
        let mut longer: Vec<(Vec<u16>, usize, usize)> = Vec::new();
        for (walk, station, heard) in &current {
            for (position, contact) in plan.contacts.iter().enumerate() {
                let follows = rule(turnaround, keeping, *heard, contact.slot);
                if follows && contact.sender == *station {
                    let walk = [&walk[..], &[position as u16]].concat();
                    longer.push((walk, contact.hearer, contact.slot));
                }
            }
        }
        let ended = longer.iter().filter(|(_, station, _)| *station == ends.1);
        let mut list: Vec<Vec<u16>> = ended.map(|(walk, _, _)| walk.clone()).collect();
        if !list.is_empty() {
            list.sort();
            return list;
        }
        current = longer;
    }
    Vec::new()
}

#[test]
fn plans_by_hand_have_other_walks_by_other_rules() {
    for (name, rule) in OTHER_RULES {
        let differs = STALE_PLANS.iter().filter(|stale| {
            let list = list_by(rule, &stale.owned().plan(), (0, stale.last()));
            list != stale.there
        });
        let differ = differs.count();
        assert!(differ > 1, "{name}: {differ}");
    }
}

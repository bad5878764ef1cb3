//! The verdict by the plain lister: plan A, all lists of tiny plans, and the second means.

use super::support::{pairs, stale_plans, tiny_plans, turned_plans, Owned};
use crate::answer::{number, Answer};
use crate::lists::near;
use crate::means::{Means, COUNTED, COUNT_LIMIT, LISTED};
use crate::plan::Ends;
use crate::plans::all_lists;
use crate::show::{text_of, verdict_text};
use crate::verdicts::{verdict_beside, verdict_on, Verdict, VERDICTS};
use Verdict::{Beginning, Complete, Wrong};

/// The verdict on a list, with a scratch of exactly the named length.
fn judge(means: Means, owned: &Owned, ends: Ends, list: &[u16]) -> Answer<Verdict> {
    let mut scratch = vec![7; owned.scratch_length()];
    let verdict = means.verdict(owned.input(), ends, list, &mut scratch)?;
    assert!(scratch.iter().all(|entry| *entry == 0));
    Ok(verdict)
}

#[test]
fn lists_of_plan_a() {
    let owned = Owned::plan_a().turning(1);
    for (verdict, list) in [
        (Complete, &[0, 4, 10, 1, 5, 10, 1, 8, 10][..]),
        (Beginning, &[]),
        (Beginning, &[0, 4, 10]),
        (Beginning, &[0, 4, 10, 1, 5, 10]),
        (Wrong, &[0]),
        (Wrong, &[0, 4]),
        (Wrong, &[0, 4, 10, 1]),
        (Wrong, &[0, 4, 10, 1, 5, 10, 1, 8]),
        (Wrong, &[1, 5, 10]),
        (Wrong, &[0, 4, 10, 1, 8, 10]),
        (Wrong, &[0, 4, 10, 0, 4, 10]),
        (Wrong, &[1, 5, 10, 0, 4, 10, 1, 8, 10]),
        (Wrong, &[0, 4, 10, 1, 5, 10, 1, 8, 10, 0]),
        (Wrong, &[0, 4, 10, 1, 5, 10, 1, 8, 10, 0, 4, 10]),
        (Wrong, &[12, 4, 10]),
        (Wrong, &[65535]),
    ] {
        assert_eq!(judge(LISTED, &owned, (0, 4), list), Ok(verdict), "{list:?}");
    }
}

#[test]
fn without_a_path_the_empty_list_is_complete() {
    for (owned, ends) in [
        (Owned::plan_a().turning(1), (2, 1)),
        (Owned::plan_a().turning(3), (0, 4)),
        (Owned::new(2, 1, &[]).turning(1), (0, 1)),
    ] {
        assert_eq!(judge(LISTED, &owned, ends, &[]), Ok(Complete));
        for entry in [0, 1, 11, 12, 65535] {
            assert_eq!(judge(LISTED, &owned, ends, &[entry]), Ok(Wrong));
        }
    }
}

/// Of all lists of up to four entries one is complete, as many are beginnings as there are paths that leave one
/// behind them, and the rest are wrong; with g = 1.
#[test]
fn all_lists_of_tiny_plans() {
    let mut complete = 0;
    for owned in tiny_plans().into_iter().step_by(5) {
        let owned = owned.turning(1);
        let records = owned.plan().contacts.len() as u16;
        let most = if records > 4 { 3 } else { 4 };
        let lists: Vec<Vec<u16>> = (0..=most)
            .flat_map(|length| all_lists(length, records + 1))
            .collect();
        for ends in pairs(owned.stations) {
            let paths = owned.list(ends.0, ends.1);
            let fits = |count: &usize| paths[..*count].concat().len() <= most;
            let mut seen = [0; 3];
            for list in &lists {
                seen[usize::from(verdict_on(&paths, list).number()) - 1] += 1;
            }
            let whole = usize::from(fits(&paths.len()));
            let beginnings = (0..paths.len()).filter(fits).count();
            let rest = lists.len() - whole - beginnings;
            assert_eq!(seen, [whole, beginnings, rest], "{owned:?} {ends:?}");
            complete += whole;
        }
    }
    assert!(complete > 200, "{complete}");
}

/// The verdicts on the lists near the complete one, listed and path by path; each is given. The tiny plans have g = 1.
#[test]
fn both_means_give_one_verdict() {
    let mut seen = [0; 3];
    let tiny = tiny_plans().into_iter().map(|plan| plan.turning(1));
    let plans = tiny.chain(turned_plans()).step_by(3);
    for owned in plans.chain(stale_plans().into_iter().step_by(4)) {
        let records = owned.plan().contacts.len() as u16;
        for ends in pairs(owned.stations) {
            for (words, list) in near(&owned.list(ends.0, ends.1), records) {
                let verdict = judge(LISTED, &owned, ends, &list);
                let counted = judge(COUNTED, &owned, ends, &list);
                assert_eq!(verdict, counted, "{owned:?} {ends:?} {words}");
                seen[usize::from(verdict.unwrap().number()) - 1] += 1;
            }
        }
    }
    assert!(seen.iter().all(|times| *times > 300), "{seen:?}");
}

#[test]
fn numbers_and_zero_beside_a_refusal() {
    assert_eq!(VERDICTS.map(Verdict::number), [1, 2, 3]);
    let owned = Owned::plan_a().turning(1);
    let refused = judge(LISTED, &owned, (0, 5), &[]);
    assert_eq!((number(&refused), verdict_beside(&refused)), (6, 0));
    let judged = judge(LISTED, &owned, (0, 4), &[]);
    assert_eq!((number(&judged), verdict_beside(&judged)), (0, 2));
}

#[test]
fn nine_is_before_the_verdict_and_clears_the_scratch() {
    let owned = Owned::plan_a().turning(1);
    for (limit, expected) in [(2, 9), (3, 0), (COUNT_LIMIT, 0)] {
        for list in [&[][..], &[0, 4, 10, 1, 5, 10, 1, 8, 10], &[65535]] {
            for means in [LISTED, COUNTED] {
                let mut scratch = vec![7; 103];
                let means = means.within(limit);
                let answer = means.verdict(owned.input(), (0, 4), list, &mut scratch);
                assert_eq!(number(&answer), expected);
                assert_eq!(scratch, [vec![0; 100], vec![7; 3]].concat());
            }
        }
    }
}

#[test]
fn shown_verdict() {
    let owned = Owned::plan_a().turning(1);
    let shown = |ends, list: &[usize]| text_of(verdict_text(owned.input(), ends, list));
    assert_eq!(shown((0, 4), &[0, 4, 10]), "verdict beginning\n");
    assert_eq!(shown((2, 1), &[]), "verdict complete\n");
    assert_eq!(shown((0, 4), &[65536, 4, 10]), "verdict wrong\n");
    assert_eq!(shown((0, 5), &[]), "refused 6\n");
}

//! Document 02's verdict on a list of positions: complete, a proper beginning, or wrong.

use lister::answer::Answer;
use lister::plan::{Ends, PlanInput};

use super::listing::question;
use super::plan::{check, check_pair, work_length};
use super::ways::{complete, found, Pair};

/// What a list is, beside the complete list of its pair.
#[derive(Clone, Copy, Debug, PartialEq, Eq)]
pub enum Verdict {
    Complete,
    /// Fewer whole paths, from the first on.
    Beginning,
    Wrong,
}

impl Verdict {
    /// The C interface's number.
    pub fn number(self) -> u32 {
        match self {
            Verdict::Complete => 1,
            Verdict::Beginning => 2,
            Verdict::Wrong => 3,
        }
    }
}

/// Whether a leg is the first position that leads home behind the legs before it. The positions of a walk
/// rise, so none up to the leg before is looked at.
fn is_first(way: &[u16], table: &[u64], pair: Pair, k: usize) -> bool {
    let from = k
        .checked_sub(1)
        .map_or(0, |before| usize::from(way[before]) + 1);
    found(way, table, pair, k, from) == Some(usize::from(way[k]))
}

/// Whether no later position than a leg leads home behind the legs before it.
fn is_last(way: &[u16], table: &[u64], pair: Pair, k: usize) -> bool {
    found(way, table, pair, k, usize::from(way[k]) + 1).is_none()
}

/// Whether the first `leg` entries of b are those of the next beginning of a shortest path after a's.
fn follows(a: &[u16], b: &[u16], table: &[u64], pair: Pair, leg: usize) -> bool {
    let Some(last) = leg.checked_sub(1) else {
        return false;
    };
    match found(a, table, pair, last, usize::from(a[last]) + 1) {
        Some(position) => position == usize::from(b[last]) && a[..last] == b[..last],
        None => follows(a, b, table, pair, last) && is_first(b, table, pair, last),
    }
}

/// The verdict on a list, for a pair that has a path.
fn judge(list: &[u16], table: &[u64], pair: Pair) -> Verdict {
    let hops = pair.hops;
    if !list.len().is_multiple_of(hops) {
        return Verdict::Wrong;
    }
    let mut ways = list.chunks_exact(hops);
    let Some(mut way) = ways.next() else {
        return Verdict::Beginning;
    };
    if !(0..hops).all(|k| is_first(way, table, pair, k)) {
        return Verdict::Wrong;
    }
    for next in ways {
        if !follows(way, next, table, pair, hops) {
            return Verdict::Wrong;
        }
        way = next;
    }
    if (0..hops).all(|k| is_last(way, table, pair, k)) {
        Verdict::Complete
    } else {
        Verdict::Beginning
    }
}

/// The verdict once 1 to 8 are excluded.
fn verdict_work(input: PlanInput, ends: Ends, list: &[u16], work: &mut [u64]) -> Answer<Verdict> {
    let Some(pair) = question(input, ends, work)? else {
        return match list {
            [] => Ok(Verdict::Complete),
            _ => Ok(Verdict::Wrong),
        };
    };
    complete(work, input, pair.destination);
    Ok(judge(list, work, pair))
}

/// The verdict: 1 to 8, its work, and the work area cleared after it. No length of the list is refused.
pub fn verdict(input: PlanInput, ends: Ends, list: &[u16], work: &mut [u64]) -> Answer<Verdict> {
    check(input)?;
    check_pair(input, ends, (0, 0), work.len())?;
    let work = &mut work[..work_length(input)];
    let answer = verdict_work(input, ends, list, work);
    work.fill(0);
    answer
}

#[cfg(test)]
mod tests {
    use super::*;
    use crate::plans::named;
    use crate::question::{timed_pair, whole_listing};

    /// The list with each entry raised, dropped, doubled, and exchanged with the one before it.
    fn changed(list: &[u16]) -> Vec<Vec<u16>> {
        let mut lists = Vec::new();
        for at in 0..list.len() {
            let mut raised = list.to_vec();
            raised[at] += 1;
            let mut dropped = list.to_vec();
            dropped.remove(at);
            let mut doubled = list.to_vec();
            doubled.insert(at, list[at]);
            let mut exchanged = list.to_vec();
            exchanged.swap(at, at.saturating_sub(1));
            lists.extend([raised, dropped, doubled, exchanged]);
        }
        lists
    }

    #[test]
    fn beginnings_and_changed_lists_get_the_verdict_of_the_definition() {
        let [.., plan] = named();
        let (ends, paths) = timed_pair(&plan);
        let whole = whole_listing(&plan, ends);
        let hops = whole.len() / paths as usize;
        let mut lists = changed(&whole);
        lists.extend((0..=whole.len()).map(|length| whole[..length].to_vec()));
        lists.push([&whole[..], &whole[..hops]].concat());
        let mut work = vec![0; work_length(plan.input())];
        for list in lists {
            let expected = if list == whole {
                Verdict::Complete
            } else if whole.starts_with(&list) && list.len().is_multiple_of(hops) {
                Verdict::Beginning
            } else {
                Verdict::Wrong
            };
            assert_eq!(verdict(plan.input(), ends, &list, &mut work), Ok(expected));
        }
    }
}

//! Lists of positions for the verdict: drawn near the complete list of a pair, every one of tiny plans, and those that
//! first way and next way give.

use lister::lists::near;
use lister::means::{Means, COUNTED, LISTED};
use lister::operation::{Operation, LAST, NONE};
use lister::plan::{MOST_CONTACTS, RECORD_BYTES};
use lister::plans::{all_lists, pairs, Owned};
use lister::random::Random;
use lister::verdicts::Verdict;

use crate::call::Call;
use crate::compare::{Comparison, Difference};
use crate::lend::{self, Lengths};

/// The paths of a pair, at most so many, as the library gives them one by one, and whether these are all.
fn given_paths(
    comparison: &mut Comparison,
    random: &mut Random,
    owned: &Owned,
    stations: [usize; 2],
    (means, most): (Means, usize),
) -> Result<(Vec<Vec<u16>>, bool), Difference> {
    let (first, input) = (Operation::FirstWay, owned.input());
    let mut call = lend::call(random, first, input, stations, Lengths::Named);
    let mut paths = Vec::new();
    loop {
        let seen = comparison.compare(&call, means)?;
        if seen.number != 0 || paths.len() == most {
            return Ok((paths, [NONE, LAST].contains(&seen.number)));
        }
        paths.push(seen.lent.narrow[0][..seen.values[0] as usize].to_vec());
        call.operation = Operation::NextWay;
        call.lent.narrow = seen.lent.narrow;
    }
}

/// The verdict on a list, which is stated too.
fn stated(
    comparison: &mut Comparison,
    call: &Call,
    means: Means,
    verdict: Verdict,
) -> Result<(), Difference> {
    let seen = comparison.compare(call, means)?;
    match (seen.number, seen.values[0]) == (0, verdict.number().into()) {
        true => Ok(()),
        false => {
            let (number, values) = (seen.number, seen.values);
            Err(format!(
                "{call}stated: {verdict:?}\nlibrary: {number} {values:?}\n"
            ))
        }
    }
}

/// The verdict on what the library's own listing of a pair gave after each call: a beginning until "none" or "last",
/// and complete then. Only the first paths are asked for where there are more.
pub fn listing(
    comparison: &mut Comparison,
    random: &mut Random,
    owned: &Owned,
    stations: [usize; 2],
    (means, most): (Means, usize),
) -> Result<(), Difference> {
    let (paths, all) = given_paths(comparison, random, owned, stations, (means, most))?;
    let (operation, input) = (Operation::Verdict, owned.input());
    for count in 0..=paths.len() {
        let mut call = lend::call(random, operation, input, stations, Lengths::Named);
        call.lent.list = paths[..count].concat();
        let verdict = match all && count == paths.len() {
            true => Verdict::Complete,
            false => Verdict::Beginning,
        };
        stated(comparison, &call, means, verdict)?;
    }
    Ok(())
}

/// The listing of every pair of a plan, and the verdict on every list near the complete one.
pub fn every_near(
    comparison: &mut Comparison,
    random: &mut Random,
    owned: &Owned,
) -> Result<(), Difference> {
    let records = (owned.bytes.len() / RECORD_BYTES) as u16;
    for (source, destination) in pairs(owned.stations) {
        let stations = [source, destination];
        listing(comparison, random, owned, stations, (LISTED, usize::MAX))?;
        let (operation, input) = (Operation::Verdict, owned.input());
        let mut call = lend::call(random, operation, input, stations, Lengths::Named);
        for (_, list) in near(&owned.list(source, destination), records) {
            call.lent.list = list;
            comparison.compare(&call, LISTED)?;
        }
    }
    Ok(())
}

/// The verdict on every list of up to so many positions, one of them no record's, for every pair.
pub fn every_list(
    comparison: &mut Comparison,
    random: &mut Random,
    owned: &Owned,
    most: usize,
) -> Result<(), Difference> {
    let records = (owned.bytes.len() / RECORD_BYTES) as u16;
    let lists: Vec<Vec<u16>> = (0..=most)
        .flat_map(|length| all_lists(length, records + 1))
        .collect();
    for (source, destination) in pairs(owned.stations) {
        let (operation, stations) = (Operation::Verdict, [source, destination]);
        let input = owned.input();
        let mut call = lend::call(random, operation, input, stations, Lengths::Named);
        for list in &lists {
            call.lent.list.clone_from(list);
            comparison.compare(&call, LISTED)?;
        }
    }
    Ok(())
}

/// The most paths of a list that is drawn.
const MOST_PATHS: usize = 5;

/// Writes the first paths of the pair to the list of a call, where it has some; mostly with a change.
pub fn draw(random: &mut Random, call: &mut Call, means: Means) {
    let mut offered = Call {
        operation: Operation::FirstWay,
        ..call.clone()
    };
    let named = lend::named(Operation::FirstWay, call.input);
    offered.lent = lend::of_lengths(random, &named, call.input.stations);
    let mut paths = Vec::new();
    for _ in 0..random.below(MOST_PATHS) {
        let (given, lent) = offered.expected(means);
        if given.number != 0 {
            break;
        }
        paths.push(lent.narrow[0][..given.values[0] as usize].to_vec());
        offered.lent.narrow = lent.narrow;
        offered.operation = Operation::NextWay;
    }
    call.lent.list = paths.concat();
    let records = call.input.bytes.len() / RECORD_BYTES;
    if random.below(3) > 0 {
        let lists = near(&paths, records.min(MOST_CONTACTS) as u16);
        call.lent.list = lists[random.below(lists.len())].1.clone();
    }
}

/// Lists of more than 65,535 entries: a plan with 2^16 paths of 17 hops with g = 1, all of them, all but one, with the last entry
/// changed, and with one entry more.
pub fn long(comparison: &mut Comparison, random: &mut Random) -> Result<(), Difference> {
    let owned = Owned::built(&lister::reach_cases::spaced_sent_ladder(1, 17, 2));
    let stations = [0, 34];
    let all = owned.list(0, 34).concat();
    assert_eq!(all.len(), 17 << 16);
    let (operation, input) = (Operation::Verdict, owned.input());
    let mut call = lend::call(random, operation, input, stations, Lengths::Named);
    let mut changed = all.clone();
    changed[all.len() - 1] -= 1;
    for (list, verdict) in [
        (all.clone(), Verdict::Complete),
        (all[..all.len() - 17].to_vec(), Verdict::Beginning),
        (all[..all.len() - 1].to_vec(), Verdict::Wrong),
        (changed, Verdict::Wrong),
        ([&all[..], &[0]].concat(), Verdict::Wrong),
    ] {
        call.lent.list = list;
        stated(comparison, &call, COUNTED, verdict)?;
    }
    Ok(())
}

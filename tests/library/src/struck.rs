//! Contacts that are struck out: every position of a plan, with the changes held to the library's own loads of the plan and
//! of its bytes without the record, as document 02's C-23 states; at the edges; and plans drawn, valid and damaged.

use lister::cases::PLAN_A;
use lister::means::{Means, COUNTED, LISTED};
use lister::operation::Operation;
use lister::plan::{MOST_CONTACTS, RECORD_BYTES};
use lister::plans::{all_plans, Owned};
use lister::random::Random;
use lister::reach_cases::ladder;
use lister::stale::small_terms;
use lister::struck_cases::{struck_ladders, FAR, STRUCK_PLANS};

use crate::call::Call;
use crate::compare::{Comparison, Difference};
use crate::edges::{packed, stated};
use crate::lend::{self, Lengths};
use crate::native::Seen;
use crate::plans;

/// A position, mostly of a record, often the first or the last.
pub fn position(random: &mut Random, bytes: &[u8]) -> usize {
    let records = bytes.len() / RECORD_BYTES;
    let known = random.below(records.max(1));
    match random.below(16) {
        0 => records,
        1 => plans::far(random, known),
        2 | 3 => 0,
        4 | 5 => records.saturating_sub(1),
        _ => known,
    }
}

/// A call at a position, on memory of the named lengths.
fn call<'a>(random: &mut Random, owned: &'a Owned, position: usize) -> Call<'a> {
    let (operation, input) = (Operation::StruckOut, owned.input());
    lend::call(random, operation, input, [position, 0], Lengths::Named)
}

/// The library's loads of a plan.
fn loads(
    comparison: &mut Comparison,
    random: &mut Random,
    owned: &Owned,
    means: Means,
) -> Result<Seen, Difference> {
    let (operation, input) = (Operation::Loads, owned.input());
    let call = lend::call(random, operation, input, [0, 0], Lengths::Named);
    comparison.compare(&call, means)
}

/// Struck out at the position of a record of an accepted plan, held to the loads with it and without it: 9 where one of
/// the two has 9, else each change is the load without the record less the load with it, none is larger than the
/// number of pairs × 2^32, and that number is not 0.
fn held(
    comparison: &mut Comparison,
    random: &mut Random,
    (owned, with): (&Owned, &Seen),
    position: usize,
    means: Means,
) -> Result<(), Difference> {
    let call = call(random, owned, position);
    let seen = comparison.compare(&call, means)?;
    let without = loads(comparison, random, &owned.without(position), means)?;
    let number = with.number.max(without.number);
    let (pairs, changes) = (seen.values[0], &seen.lent.signed[0][..owned.stations]);
    let told = |text: &str| {
        let library = format!("library: {}, pairs {pairs}, {changes:?}", seen.number);
        let loads = [with, &without].map(|loads| (loads.number, &loads.lent.wide[1]));
        Err(format!(
            "{call}{library}\nloads with and without: {loads:?}\n{text}\n"
        ))
    };
    if seen.number != number {
        return told("the number is not that of the loads");
    }
    if number != 0 {
        return Ok(());
    }
    let [with, without] = [with, &without].map(|loads| &loads.lent.wide[1]);
    let differences = without.iter().zip(with);
    let differences = differences.map(|(without, with)| i128::from(*without) - i128::from(*with));
    if !differences.eq(changes.iter().map(|change| i128::from(*change))) {
        return told("the changes are not the differences of the loads");
    }
    let most = i128::from(pairs) << 32;
    let largest = changes.iter().map(|change| i128::from(*change).abs()).max();
    let largest = largest.unwrap_or(0);
    if pairs == 0 || largest > most {
        return told("a change is larger than the number of pairs allows, or there are none");
    }
    let kinds = [
        true,
        changes.iter().any(|change| *change > 0),
        changes.iter().any(|change| *change < 0),
        largest == most,
    ];
    for (times, seen) in comparison.changes.iter_mut().zip(kinds) {
        *times += u64::from(seen);
    }
    Ok(())
}

/// Struck out at every position of a small accepted plan, held to the loads, and at the first that is none.
pub fn every_position(
    comparison: &mut Comparison,
    random: &mut Random,
    owned: &Owned,
) -> Result<(), Difference> {
    let with = loads(comparison, random, owned, LISTED)?;
    for position in 0..owned.records() {
        held(comparison, random, (owned, &with), position, LISTED)?;
    }
    let none = call(random, owned, owned.records());
    comparison.compare(&none, LISTED)?;
    Ok(())
}

/// Compares all of them; the seed is of what the tables hold before and of the drawn plans.
pub fn compare(comparison: &mut Comparison, seed: u64) -> Result<(), Difference> {
    let random = &mut Random::new(seed);
    by_hand(comparison, random)?;
    every_term(comparison, random)?;
    far(comparison, random)?;
    most_records(comparison, random)?;
    many_walks(comparison, random)?;
    drawn(comparison, random)?;
    damaged(comparison, random)
}

/// The lister's plans by hand.
fn by_hand(comparison: &mut Comparison, random: &mut Random) -> Result<(), Difference> {
    for plan in STRUCK_PLANS {
        let owned = plan.labelled().owned();
        every_position(comparison, random, &owned)?;
        for struck in plan.struck {
            let call = call(random, &owned, struck.position as usize);
            let seen = comparison.compare(&call, LISTED)?;
            let found = (seen.values[0], &seen.lent.signed[0][..]);
            if found != (struck.pairs, struck.changes) {
                return Err(format!("{call}stated: {struck:?}\nlibrary: {found:?}\n"));
            }
        }
    }
    Ok(())
}

/// Some plans of 3 stations and 2 slots with every g up to 3 and h up to 4.
fn every_term(comparison: &mut Comparison, random: &mut Random) -> Result<(), Difference> {
    for owned in all_plans(3, 2).into_iter().step_by(29) {
        for (turnaround, keeping) in small_terms() {
            let owned = owned.clone().turning(turnaround).keeping_for(keeping);
            every_position(comparison, random, &owned)?;
        }
    }
    Ok(())
}

/// 17 at positions far above the records of plan A, on the named lengths and on others: 8 where one is short.
fn far(comparison: &mut Comparison, random: &mut Random) -> Result<(), Difference> {
    let owned = Owned::new(5, 4, &PLAN_A);
    for position in FAR
        .map(|position| position as usize)
        .into_iter()
        .chain([12])
    {
        stated(comparison, &call(random, &owned, position), 17)?;
        for _ in 0..20 {
            let (operation, input) = (Operation::StruckOut, owned.input());
            let call = lend::call(random, operation, input, [position, 0], Lengths::Any);
            comparison.compare(&call, LISTED)?;
        }
    }
    Ok(())
}

/// 8,192 records: the first, one in the middle and the last; the next position is 17. Of 8,193 every position is 2.
fn most_records(comparison: &mut Comparison, random: &mut Random) -> Result<(), Difference> {
    let owned = Owned::new(64, 3, &packed(MOST_CONTACTS));
    let last = MOST_CONTACTS - 1;
    for (position, number) in [(0, 0), (4095, 0), (last, 0), (last + 1, 17), (65535, 17)] {
        stated(comparison, &call(random, &owned, position), number)?;
    }
    let more = Owned::new(64, 3, &packed(MOST_CONTACTS + 1));
    for position in [0, last + 1, last + 2] {
        stated(comparison, &call(random, &more, position), 2)?;
    }
    Ok(())
}

/// Ladders with 9 in one of the two plans, in both and in neither; and one with counts up to 2^63, held to the loads.
fn many_walks(comparison: &mut Comparison, random: &mut Random) -> Result<(), Difference> {
    for ladder in struck_ladders() {
        let owned = ladder.labelled().owned();
        let call = call(random, &owned, ladder.position() as usize);
        stated(comparison, &call, ladder.number().into())?;
    }
    let owned = Owned::built(&ladder(64, 2));
    let with = loads(comparison, random, &owned, COUNTED)?;
    for position in [0, owned.records() / 2, owned.records() - 1] {
        held(comparison, random, (&owned, &with), position, COUNTED)?;
    }
    Ok(())
}

/// Small plans drawn, with every position held to the loads.
fn drawn(comparison: &mut Comparison, random: &mut Random) -> Result<(), Difference> {
    for round in 0..150 {
        let owned = plans::in_turn(random, round);
        every_position(comparison, random, &owned)?;
    }
    Ok(())
}

/// Plans of every kind, some damaged, on lengths drawn, with positions drawn and the records' number and the last one.
fn damaged(comparison: &mut Comparison, random: &mut Random) -> Result<(), Difference> {
    for _ in 0..400 {
        let owned = plans::any_damaged(random);
        let last = owned.records();
        for position in [position(random, &owned.bytes), last, last.saturating_sub(1)] {
            let (operation, input) = (Operation::StruckOut, owned.input());
            let call = lend::call(random, operation, input, [position, 0], Lengths::Any);
            comparison.compare(&call, COUNTED)?;
        }
    }
    Ok(())
}

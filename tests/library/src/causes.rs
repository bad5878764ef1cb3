//! Numbers against each other: every number of through set, of foremost and of the verdict against every other, 12
//! and 14 against every other number of each operation, 13 against every other number of partial loads, and 17 against
//! every other number of struck out.

use lister::cases::{plan_bytes, Record};
use lister::means::COUNTED;
use lister::operation::{Operation, OPERATIONS};
use lister::plan::{KEPT, LEAST_TURNAROUND};
use lister::plans::Owned;
use lister::random::Random;
use lister::reach_cases::ladder;

use crate::band;
use crate::call::Call;
use crate::compare::{Comparison, Difference};
use crate::lend::{self, Lengths};

/// Compares all of them; the seed is of what the tables hold before.
pub fn compare(comparison: &mut Comparison, seed: u64) -> Result<(), Difference> {
    let random = &mut Random::new(seed);
    every_two_causes(comparison, random)?;
    terms_and_another_cause(comparison, random)?;
    let sources = [0, 1, 131, 132, 300, usize::MAX];
    number_and_another_cause(comparison, random, Operation::PartialLoads, &sources)?;
    let positions = [0, 2, 3, 515, 516, 65535, usize::MAX];
    number_and_another_cause(comparison, random, Operation::StruckOut, &positions)
}

/// A ladder of 65 layers, which gives 9 from its source; plans of its sizes, accepted or with one of the
/// causes 1 to 5; and pairs of them, one with 6, one with 6 and 7, one with 7.
fn plans_with_causes() -> (Vec<Owned>, [[usize; 2]; 5]) {
    let ladder = Owned::built(&ladder(65, 2));
    let (stations, slots) = (ladder.stations, ladder.slots);
    let slot = slots as u16;
    let records = [(1, 0, 1), (1, 0, 2), (2, 1, 3)];
    let with = |record: Record| plan_bytes(&[&records[..], &[record]].concat());
    let cut = ladder.bytes[1..].to_vec();
    let plans = [
        (ladder.bytes.clone(), stations, slots),
        (plan_bytes(&records), stations, slots),
        (ladder.bytes.clone(), 257, slots),
        (ladder.bytes.clone(), stations, 256),
        (cut, stations, slots),
        (with((slot + 1, 0, 1)), stations, slots),
        (with((slot, 5, 4)), stations, slots),
        (with((slot, 5, 5)), stations, slots),
        (with((slot, stations as u16, 0)), stations, slots),
        (with((slot, 0, stations as u16)), stations, slots),
        (with((1, 0, 1)), stations, slots),
    ];
    let plan = |(bytes, stations, slots)| Owned {
        bytes,
        stations,
        slots,
        turnaround: LEAST_TURNAROUND,
        keeping: KEPT,
    };
    let ends = [[0, 130], [1, 130], [0, 131], [300, 300], [7, 7]];
    (plans.map(plan).to_vec(), ends)
}

/// The operations whose numbers are set against each other.
const ASKED: [Operation; 3] = [
    Operation::ThroughSet,
    Operation::Foremost,
    Operation::Verdict,
];

/// Through set, foremost and the verdict with each set of causes of which one is of the plan, and any of the call:
/// 6 and 7 by the stations, 8 by the set or the table and the work area, 11, and 9 by a ladder of 65
/// layers.
fn every_two_causes(comparison: &mut Comparison, random: &mut Random) -> Result<(), Difference> {
    let (plans, ends) = plans_with_causes();
    let ladder = &plans[0];
    for owned in &plans {
        let input = owned.input();
        for ends in ends {
            for change in all_changes() {
                for operation in ASKED {
                    let mut call = lend::call(random, operation, input, ends, Lengths::Named);
                    if change.made(random, ladder, &mut call) {
                        comparison.compare(&call, COUNTED)?;
                    }
                }
            }
        }
    }
    Ok(())
}

/// How many entries fewer than one more than the named ones the first lent part and the work area have,
/// and a wrong byte of a set with its place.
struct Change {
    first: usize,
    work: usize,
    wrong: Option<(usize, u8)>,
}

impl Change {
    /// Makes the change in what a call lends for a plan; false where it asks for a set, or for another part than the
    /// work area, and the call has none.
    fn made(&self, random: &mut Random, owned: &Owned, Call { lent, .. }: &mut Call) -> bool {
        let first = owned.stations + 1 - self.first;
        let work = lend::wide(random, owned.scratch_length() + 1 - self.work);
        match (&mut lent.sets[..], &mut lent.wide[..], self.wrong) {
            ([set], [area], wrong) => {
                *set = vec![1; first];
                *area = work;
                if let Some((place, byte)) = wrong {
                    set[place.min(first - 1)] = byte;
                }
                true
            }
            ([], [table, area], None) => {
                *table = lend::wide(random, first);
                *area = work;
                true
            }
            ([], [area], None) => {
                *area = work;
                self.first == 0
            }
            _ => false,
        }
    }
}

/// Lengths around the named ones, with and without a wrong byte at the first and the last place.
fn all_changes() -> Vec<Change> {
    let mut changes = Vec::new();
    for first in 0..3 {
        for work in 0..3 {
            for wrong in [None, Some((0, 2)), Some((130, 255))] {
                changes.push(Change { first, work, wrong });
            }
        }
    }
    changes
}

/// g and h: 12, 14, both, and neither.
const TERMS: [(usize, usize); 12] = [
    (0, KEPT),
    (17, KEPT),
    (usize::MAX, KEPT),
    (16, KEPT),
    (1, 0),
    (16, 15),
    (1, 256),
    (1, usize::MAX),
    (0, 0),
    (17, 16),
    (17, usize::MAX),
    (1, 1),
];

/// Each operation with 12 alone, 14 alone and both, with every other of its numbers and with several of them: 1 to 5
/// by the plan, 6 and 7 by the stations, 8 by each lent part, 9 by the ladder, 10 by what the way buffer holds, 11
/// by a byte of the set.
fn terms_and_another_cause(
    comparison: &mut Comparison,
    random: &mut Random,
) -> Result<(), Difference> {
    let (plans, ends) = plans_with_causes();
    for owned in &plans {
        for (turnaround, keeping) in TERMS {
            let owned = owned.clone().turning(turnaround).keeping_for(keeping);
            for operation in OPERATIONS {
                for ends in ends {
                    short_parts(comparison, random, &owned, operation, ends)?;
                }
            }
        }
    }
    Ok(())
}

/// An operation with one number behind g and h, which is k or the position. With 13 or 17 alone and with every other of
/// its numbers: 1 to 5 by the plan, 12, 14, 8 by each lent part, 9 by the ladder; and all of these with k up to n, or
/// with a position of the plan. The ladder has 131 stations and 516 records, the accepted plan 3 records.
fn number_and_another_cause(
    comparison: &mut Comparison,
    random: &mut Random,
    operation: Operation,
    numbers: &[usize],
) -> Result<(), Difference> {
    let (plans, _) = plans_with_causes();
    for owned in &plans {
        for (turnaround, keeping) in [(1, KEPT), (17, KEPT), (1, 0), (16, 15), (1, 256), (17, 0)] {
            let owned = owned.clone().turning(turnaround).keeping_for(keeping);
            for number in numbers {
                short_parts(comparison, random, &owned, operation, [*number, 0])?;
            }
        }
    }
    Ok(())
}

/// A call on the named lengths, and for each lent part one on which it lacks an entry; half of the sets have a
/// wrong byte.
fn short_parts(
    comparison: &mut Comparison,
    random: &mut Random,
    owned: &Owned,
    operation: Operation,
    arguments: [usize; 2],
) -> Result<(), Difference> {
    let named = lend::named(operation, owned.input());
    let parts = named.iter().map(Vec::len).sum::<usize>();
    for short in 0..=parts {
        let mut lengths = named.clone();
        let part = lengths.iter_mut().flatten().nth(short);
        if let Some(length) = part {
            *length -= 1;
        }
        let mut call = lend::call(random, operation, owned.input(), arguments, Lengths::Named);
        call.lent = lend::of_lengths(random, &lengths, owned.stations);
        band::draw(random, &mut call);
        if let [set] = &mut call.lent.sets[..] {
            set[0] = [1, 2][random.below(2)];
        }
        comparison.compare(&call, COUNTED)?;
    }
    Ok(())
}

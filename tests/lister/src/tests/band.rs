//! Take in and take out by the plain lister, and runs of them against their bookkeeping.

use std::collections::BTreeMap;

use super::support::{all_plans, random_plan, Owned};
use crate::answer::number;
use crate::band::{records_by_slot, Band, Taking, BAND_SLOTS};
use crate::band_runs::{drawn_table, random_run};
use crate::cases::{doubled, first_records, PLAN_A};
use crate::plan::KEPT;
use crate::random::Random;

/// 300 entries: 255 of one value but those of some slots, and marks behind them.
fn table(value: u16, slots: &[(usize, u16)]) -> Vec<u16> {
    let mut table = vec![value; BAND_SLOTS];
    for (slot, entry) in slots {
        table[slot - 1] = *entry;
    }
    table.extend((0..45).map(|mark| 60000 + mark));
    table
}

/// The number of a call, and the table after it.
fn taken(taking: Taking, owned: &Owned, table: &[u16]) -> (u8, Vec<u16>) {
    let mut table = table.to_vec();
    let answer = taking.take(owned.input(), &mut table);
    (number(&answer), table)
}

/// Asserts that a call is refused with a number, and leaves the table.
fn assert_refused(taking: Taking, owned: &Owned, table: &[u16], number: u8) {
    assert_eq!(taken(taking, owned, table), (number, table.to_vec()));
}

const ONCE: [(usize, u16); 4] = [(1, 4), (2, 4), (3, 2), (4, 2)];
const TWICE: [(usize, u16); 4] = [(1, 8), (2, 8), (3, 4), (4, 4)];

#[test]
fn plan_a_in_twice_and_out_twice() {
    let owned = Owned::plan_a();
    let [none, once, twice] = [table(0, &[]), table(0, &ONCE), table(0, &TWICE)];
    assert_eq!(taken(Taking::In(4), &owned, &none), (0, once.clone()));
    assert_eq!(taken(Taking::In(8), &owned, &once), (0, twice.clone()));
    assert_refused(Taking::In(3), &owned, &none, 15);
    assert_refused(Taking::In(7), &owned, &once, 15);
    assert_eq!(taken(Taking::Out, &owned, &twice), (0, once.clone()));
    assert_eq!(taken(Taking::Out, &owned, &once), (0, none.clone()));
    assert_refused(Taking::Out, &owned, &none, 16);
}

#[test]
fn a_doubled_contact_takes_two_channels() {
    let one_way = Owned::new(2, 9, &[(7, 0, 1)]);
    let both = Owned::new(2, 9, &doubled(&[(7, 0, 1)]));
    let none = table(0, &[]);
    assert_eq!(
        taken(Taking::In(1), &one_way, &none),
        (0, table(0, &[(7, 1)]))
    );
    assert_refused(Taking::In(1), &both, &none, 15);
    assert_eq!(taken(Taking::In(2), &both, &none), (0, table(0, &[(7, 2)])));
    assert_refused(Taking::Out, &both, &table(9, &[(7, 1)]), 16);
}

/// Each of the 255 entries is looked at, also where the plan has no record and beyond T; none behind them is.
#[test]
fn an_entry_above_c_anywhere_is_15() {
    for slots in [4, 255] {
        let owned = Owned::new(5, slots, &PLAN_A);
        let records = records_by_slot(&owned.bytes);
        for slot in 1..=BAND_SLOTS {
            let most = 50 - records[slot - 1] as u16;
            let (number, after) = taken(Taking::In(50), &owned, &table(5, &[(slot, most)]));
            assert_eq!((number, after[slot - 1]), (0, 50), "{slot}");
            let over = table(5, &[(slot, most + 1)]);
            assert_refused(Taking::In(50), &owned, &over, 15);
        }
    }
}

#[test]
fn an_entry_below_the_records_is_16() {
    let owned = Owned::plan_a();
    for (slot, records) in ONCE {
        let (number, after) = taken(Taking::Out, &owned, &table(5, &[(slot, records)]));
        assert_eq!((number, after[slot - 1]), (0, 0), "{slot}");
        let under = table(5, &[(slot, records - 1)]);
        assert_refused(Taking::Out, &owned, &under, 16);
    }
    for slot in 5..=BAND_SLOTS {
        let (number, after) = taken(Taking::Out, &owned, &table(5, &[(slot, 0)]));
        assert_eq!((number, after[slot - 1]), (0, 0), "{slot}");
    }
}

/// No carry is lost, whatever c is.
#[test]
fn sums_above_16_bits_are_15() {
    let full = Owned::new(256, 1, &first_records(8192));
    let (number, after) = taken(Taking::In(65535), &full, &table(0, &[(1, 57343)]));
    assert_eq!((number, after[0]), (0, 65535));
    for entry in [57344, 57345, 60000, 65534, 65535] {
        for channels in [0, 1, 8191, 8192, 57344, 65534, 65535] {
            let over = table(0, &[(1, entry)]);
            assert_refused(Taking::In(channels), &full, &over, 15);
        }
    }
    let (number, after) = taken(Taking::Out, &full, &table(0, &[(1, 65535)]));
    assert_eq!((number, after[0]), (0, 57343));
}

#[test]
fn no_channels_take_in_plans_without_records_alone() {
    let none = table(0, &[]);
    for owned in all_plans(2, 2) {
        let number = if owned.bytes.is_empty() { 0 } else { 15 };
        assert_refused(Taking::In(0), &owned, &none, number);
    }
}

#[test]
fn tables_of_fewer_than_255_entries_are_8() {
    for slots in [4, 255] {
        let owned = Owned::new(5, slots, &PLAN_A);
        for length in 0..=300 {
            for taking in [Taking::In(9), Taking::Out] {
                let before = vec![5; length];
                let (number, after) = taken(taking, &owned, &before);
                assert_eq!(number, if length < 255 { 8 } else { 0 }, "{length}");
                assert_eq!(before == after, length < 255, "{length}");
                assert!(after.iter().skip(255).all(|entry| *entry == 5));
            }
        }
    }
}

/// Taking out what was taken in gives the table back; a plan's entries are its records.
#[test]
fn out_undoes_in() {
    let mut random = Random::new(5);
    let mut undone = 0;
    for owned in all_plans(3, 1).into_iter().chain(all_plans(2, 2)) {
        let taking = Taking::In(random.between(2, 40) as u16);
        let before = drawn_table(&mut random, taking, &owned.bytes, 260);
        let (number, after) = taken(taking, &owned, &before);
        if number == 0 {
            assert_eq!(taken(Taking::Out, &owned, &after), (0, before));
            undone += 1;
        }
        let (_, alone) = taken(Taking::In(99), &owned, &[0; BAND_SLOTS]);
        let sum: usize = alone.iter().map(|entry| usize::from(*entry)).sum();
        assert_eq!(6 * sum, owned.bytes.len());
    }
    assert!(undone > 30, "{undone}");
}

/// Neither g nor h is looked at.
#[test]
fn terms_do_not_count() {
    let before = table(5, &[]);
    for taking in [Taking::In(9), Taking::Out] {
        let expected = taken(taking, &Owned::plan_a(), &before);
        assert_eq!(expected.0, 0);
        for (turnaround, keeping) in [(0, 0), (17, 3), (1, 256), (usize::MAX, KEPT)] {
            let owned = Owned::plan_a().turning(turnaround).keeping_for(keeping);
            assert_eq!(taken(taking, &owned, &before), expected);
        }
    }
}

/// Runs on one table: numbers and entries are the bookkeeping's after every call, no entry is above c, and 16 never
/// comes. Both answers, every refusal and plans that are in twice are there.
#[test]
fn runs_are_as_the_bookkeeping_says() {
    let mut seen = BTreeMap::new();
    let mut twice = 0;
    for seed in 1..=40 {
        let random = &mut Random::new(seed);
        let channels = random.between(0, 24) as u16;
        let run = random_run(random, channels, 300);
        let mut band = vec![0; BAND_SLOTS];
        band.resize(run.length, 777);
        for call in &run.calls {
            let lent = &mut band[..call.length];
            let answer = call.taking.take(call.plan.input(), lent);
            assert_eq!(number(&answer), call.number, "seed {seed}: {call:?}");
            let (named, behind) = band.split_at(BAND_SLOTS);
            let named: Vec<u64> = named.iter().map(|entry| (*entry).into()).collect();
            assert_eq!(named, call.used, "seed {seed}: {call:?}");
            assert!(named.iter().all(|entry| *entry <= channels.into()));
            assert!(behind.iter().all(|entry| *entry == 777));
            let kind = matches!(call.taking, Taking::In(_));
            *seen.entry((kind, call.number)).or_insert(0) += 1;
            twice += usize::from(call.plans.0 > call.plans.1);
        }
    }
    let known = |kind: bool| {
        let last = kind.then_some(15);
        let numbers = [0, 1, 2, 3, 4, 5, 8].into_iter().chain(last);
        numbers.map(move |number| (kind, number))
    };
    let known: Vec<(bool, u8)> = known(false).chain(known(true)).collect();
    assert!(seen.keys().copied().eq(known), "{seen:?}");
    assert!(seen.values().all(|times| *times > 20), "{seen:?}");
    assert!(seen[&(true, 15)] > 1000 && twice > 1000, "{seen:?} {twice}");
}

/// The bookkeeping of plan A and one more record: c decides, and what is out leaves room.
#[test]
fn bookkeeping_by_hand() {
    let (plan, one) = (Owned::plan_a(), Owned::new(2, 1, &[(1, 0, 1)]));
    let mut band = Band::new(5);
    let mut take = |taking: Taking, owned: &Owned| {
        let answer = band.take(taking, owned.input(), BAND_SLOTS);
        (
            number(&answer),
            band.used()[..5].to_vec(),
            band.plans().len(),
        )
    };
    assert_eq!(take(Taking::In(5), &plan), (0, vec![4, 4, 2, 2, 0], 1));
    assert_eq!(take(Taking::In(5), &plan), (15, vec![4, 4, 2, 2, 0], 1));
    assert_eq!(take(Taking::In(5), &one), (0, vec![5, 4, 2, 2, 0], 2));
    assert_eq!(take(Taking::In(5), &one), (15, vec![5, 4, 2, 2, 0], 2));
    assert_eq!(take(Taking::Out, &plan), (0, vec![1, 0, 0, 0, 0], 1));
    assert_eq!(take(Taking::In(5), &one), (0, vec![2, 0, 0, 0, 0], 2));
    assert_eq!(take(Taking::Out, &one), (0, vec![1, 0, 0, 0, 0], 1));
}

/// Tables drawn for a call have both answers, and the own refusal by an entry in no slot of the plan too.
#[test]
fn drawn_tables_have_both_answers() {
    let mut seen = BTreeMap::new();
    let random = &mut Random::new(3);
    for index in 0..4000 {
        let owned = random_plan(random);
        let taking = match index % 2 {
            0 => Taking::In(random.between(0, 40) as u16),
            _ => Taking::Out,
        };
        let drawn = drawn_table(random, taking, &owned.bytes, BAND_SLOTS);
        let empty = Owned::new(1, 1, &[]);
        let [all, untouched] = [&owned, &empty].map(|plan| taken(taking, plan, &drawn).0);
        *seen.entry((index % 2, all, untouched)).or_insert(0) += 1;
    }
    let keys: Vec<(usize, u8, u8)> = seen.keys().copied().collect();
    let expected = [(0, 0, 0), (0, 15, 0), (0, 15, 15), (1, 0, 0), (1, 16, 0)];
    assert_eq!(keys, expected);
    assert!(seen.values().all(|times| *times > 50), "{seen:?}");
}

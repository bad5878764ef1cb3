//! Random traces against the cursor.

use super::support::{random_plan, random_turned_plan, stale_plans, Owned};
use crate::answer::number;
use crate::cases::PLAN_A;
use crate::cursor::{first_difference, Cursor, Step};
use crate::means::COUNT_LIMIT;
use crate::random::Random;
use crate::stale::random_stale_plan;
use crate::traces::{contents, random_trace};
use crate::ways::{Found, Way, WayCall};

/// The seed of the random traces.
const SEED: u64 = 2;

#[test]
fn answers_and_buffers_are_the_cursors() {
    let mut random = Random::new(SEED);
    let mut lengths = [0; 4];
    let mut others = [0; 2];
    for round in 0..2100 {
        let owned = match round % 3 {
            0 => random_plan(&mut random),
            1 => random_turned_plan(&mut random),
            _ => random_stale_plan(&mut random),
        };
        let source = random.below(owned.stations);
        let destination = (source + random.between(1, owned.stations - 1)) % owned.stations;
        let case = random_trace(&mut random, &owned, (source, destination));
        lengths[case.list.len().min(3)] += 1;
        for step in case.trace() {
            if let Step::Call(_, WayCall { input, .. }) = step {
                others[0] += usize::from(input.turnaround != owned.turnaround);
                others[1] += usize::from(input.keeping != owned.keeping);
            }
        }
        let list = owned.list(source, destination);
        let difference = first_difference(COUNT_LIMIT, list, &case.contents, &case.trace());
        assert_eq!(difference, None, "seed {SEED} round {round} {owned:?}");
    }
    assert!(lengths.iter().all(|rounds| *rounds > 100), "{lengths:?}");
    assert!(others.iter().all(|calls| *calls > 1000), "{others:?}");
}

/// First way and next way on plans whose units drop readings; some calls have an h with 14.
#[test]
fn answers_where_readings_are_dropped_are_the_cursors() {
    let mut random = Random::new(SEED);
    let mut given = 0;
    for owned in stale_plans() {
        let last = owned.stations - 1;
        let list = owned.list(0, last);
        let contents = contents(&mut random, &list, owned.slots);
        let trace: Vec<Step> = (0..6)
            .map(|_| {
                let mut call = owned.way_call(0, last);
                let way = [Way::First, Way::Next, Way::Next][random.below(3)];
                if random.below(4) == 0 {
                    call.input.keeping = [0, owned.turnaround - 1, 256, 65535][random.below(4)];
                }
                Step::Call(way, call)
            })
            .collect();
        given += usize::from(list.len() > 1);
        let difference = first_difference(COUNT_LIMIT, list, &contents, &trace);
        assert_eq!(difference, None, "{owned:?}");
    }
    assert!(given > 500, "{given}");
}

#[test]
fn count_limit_refuses_every_call_of_a_trace() {
    let mut random = Random::new(SEED);
    let owned = Owned::plan_a();
    let list = owned.list(0, 4);
    for _ in 0..200 {
        let case = random_trace(&mut random, &owned, (0, 4));
        let trace = case.trace();
        let start = case.contents.as_slice();
        assert_eq!(first_difference(2, list.clone(), start, &trace), None);
        let mut cursor = Cursor::start(2, list.clone(), start);
        let mut written = start.to_vec();
        for step in &trace {
            match step {
                Step::Call(way, call) => {
                    let number = number(&cursor.call(*way, call));
                    let known = (1..=9).contains(&number) || [12, 14].contains(&number);
                    assert!(known, "{number}");
                }
                Step::Write(entry, value) => {
                    cursor.write(*entry, *value);
                    written[*entry] = *value;
                }
            }
        }
        assert_eq!(cursor.buffer(), written);
    }
}

#[test]
fn cursor_on_plan_a() {
    let owned = Owned::plan_a();
    let call = owned.way_call(0, 4);
    let list = owned.list(0, 4);
    let mut cursor = Cursor::start(COUNT_LIMIT, list.clone(), &[1, 5, 10, 8]);
    assert_eq!(cursor.call(Way::Next, &call), Ok(Found::Walk(3)));
    assert_eq!(cursor.buffer(), [1, 8, 10, 8]);
    assert_eq!(cursor.call(Way::Next, &call), Ok(Found::Last));
    assert_eq!(cursor.call(Way::Next, &call), Ok(Found::Last));
    assert_eq!(cursor.buffer(), [1, 8, 10, 8]);
    cursor.write(3, 9);
    assert_eq!(cursor.call(Way::First, &call), Ok(Found::Walk(3)));
    assert_eq!(cursor.buffer(), [0, 4, 10, 9]);
    let mut short = call;
    short.buffer_length = 3;
    assert_eq!(number(&cursor.call(Way::Next, &short)), 8);
    assert_eq!(cursor.call(Way::Next, &call), Ok(Found::Walk(3)));
    assert_eq!(cursor.buffer(), [1, 5, 10, 9]);
    let mut off = Cursor::start(COUNT_LIMIT, list, &[0, 5, 10, 8]);
    assert_eq!(number(&off.call(Way::Next, &call)), 10);
    assert_eq!(off.buffer(), [0, 5, 10, 8]);
}

#[test]
fn cursor_without_a_path() {
    let owned = Owned::plan_a();
    let call = owned.way_call(2, 1);
    let mut cursor = Cursor::start(COUNT_LIMIT, owned.list(2, 1), &[4, 4, 4, 4]);
    assert_eq!(cursor.call(Way::First, &call), Ok(Found::NoWalk));
    assert_eq!(number(&cursor.call(Way::Next, &call)), 10);
    assert_eq!(cursor.buffer(), [4, 4, 4, 4]);
}

#[test]
fn a_wrong_list_is_told() {
    let owned = Owned::new(5, 4, &PLAN_A);
    let call = owned.way_call(0, 4);
    let trace = [
        Step::Call(Way::First, call),
        Step::Call(Way::Next, call),
        Step::Call(Way::Next, call),
    ];
    let differs = |list: Vec<Vec<u16>>| first_difference(COUNT_LIMIT, list, &[0; 4], &trace);
    let list = owned.list(0, 4);
    assert_eq!(differs(list.clone()), None);
    assert_eq!(differs(list[..1].to_vec()), Some(1));
    assert_eq!(differs(list[..2].to_vec()), Some(2));
    assert_eq!(differs(Vec::new()), Some(0));
}

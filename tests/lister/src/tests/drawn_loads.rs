//! Drawn loads: plan A by hand, the tables of loads, records that are read back, shares between the doubles, and cause 9.

use super::asked::{Asked, BOTH};
use super::enumerated::Naive;
use super::support::{pairs, random_plan, stale_plans, tiny_plans, turned_plans, Owned};
use crate::answer::number;
use crate::drawing::{Figures, DRAWN_BYTES};
use crate::drawing_bits::record;
use crate::drawn_cases::{no_share, UNSHARED};
use crate::means::COUNTED;
use crate::pair::Paired;
use crate::random::Random;
use crate::reach_cases::ladder;
use crate::show::{drawn_text, reading_text, text_of};

/// What the records of an accepted plan say.
fn read_all(records: &[u8]) -> Vec<Figures> {
    let records = records.chunks_exact(DRAWN_BYTES);
    let read = |record: &[u8]| Figures::read(record).expect("a record of a station");
    records.map(read).collect()
}

/// The pairs and loads that document 01 has for plan A.
#[test]
fn records_of_plan_a() {
    let owned = Owned::plan_a().turning(1);
    let shown = "\
        00 00 00 00 00 00 00 00 00 00 00 00 00 00 00 00 00 00 : 0 0 0\n\
        00 01 3f e5 55 55 55 40 00 00 3f e5 55 55 55 80 00 00 : 1 2863311530 2\n\
        00 02 3f f5 55 55 55 40 00 00 3f f5 55 55 55 60 00 00 : 2 5726623060 2\n\
        00 03 40 10 00 00 00 00 00 00 40 10 00 00 00 10 00 00 : 3 17179869184 4\n\
        00 04 00 00 00 00 00 00 00 00 00 00 00 00 00 00 00 00 : 4 0 0\n";
    assert_eq!(text_of(drawn_text(owned.input())), shown);
    let refused = owned.turning(17);
    assert_eq!(text_of(drawn_text(refused.input())), "refused 12\n");
    assert_eq!(reading_text(&[0; DRAWN_BYTES]), "0 0 0\n");
    assert_eq!(reading_text(&[]), "foreign\n");
}

/// Both means give the tables of loads and the same records, one for each station in rising order, which both ways of
/// whole numbers and of f64 write.
fn assert_drawn(owned: &Owned) -> Vec<Figures> {
    let asked = BOTH.map(|means| Asked(means, owned));
    let (loads, records) = asked[0].drawn_loads().unwrap();
    assert_eq!(asked[1].drawn_loads(), Ok((loads.clone(), records.clone())));
    assert_eq!(asked[0].loads(owned.stations), Ok(loads.clone()));
    let all = read_all(&records);
    assert_eq!(all.len(), owned.stations);
    for (station, figures) in all.iter().enumerate() {
        assert_eq!(usize::from(figures.station), station);
        assert_eq!(figures.load, loads[station].load);
        assert_eq!(figures.pairs, loads[station].pairs);
        let part = &records[DRAWN_BYTES * station..][..DRAWN_BYTES];
        assert_eq!(part, record(*figures));
        assert_eq!(part[2..].iter().all(|byte| *byte == 0), figures.pairs == 0);
    }
    all
}

#[test]
fn records_are_those_of_loads() {
    let mut random = Random::new(28);
    let mut plans = tiny_plans();
    plans.extend(turned_plans());
    plans.extend(stale_plans());
    let mut plans: Vec<Owned> = plans.into_iter().step_by(7).collect();
    plans.extend((0..200).map(|_| random_plan(&mut random)));
    let mut idle = [0; 2];
    for owned in &plans {
        for figures in assert_drawn(owned) {
            idle[usize::from(figures.pairs == 0)] += 1;
        }
    }
    assert!(idle.iter().all(|count| *count > 1000), "{idle:?}");
}

/// The greatest number that divides two.
fn divisor(one: u128, other: u128) -> u128 {
    match other {
        0 => one,
        _ => divisor(other, one % other),
    }
}

/// The sum of a station's through counts by the counts of the pairs, over one denominator: both as whole numbers.
fn exact_sum(all: &[Paired], station: usize) -> (u128, u128) {
    let mut sum = (0, 1);
    for paired in all.iter().filter(|paired| paired.through[station] > 0) {
        let through = u128::from(paired.through[station]);
        let count = u128::from(paired.values.count);
        let (over, under) = (sum.0 * count + through * sum.1, sum.1 * count);
        let common = divisor(over, under);
        sum = (over / common, under / common);
    }
    sum
}

/// The exact sum of a station's shares, by a plain enumeration, is at least the low and below the high where it has pairs,
/// and 0 where it has none.
#[test]
fn sums_of_shares_lie_between_the_doubles() {
    let mut random = Random::new(29);
    let mut above = 0;
    for _ in 0..300 {
        let owned = random_plan(&mut random);
        let naive = Naive::new(&owned.plan());
        let paired = |ends| naive.paired(ends, &naive.list(ends));
        let all: Vec<Paired> = pairs(owned.stations).map(paired).collect();
        for (station, figures) in assert_drawn(&owned).into_iter().enumerate() {
            let (over, under) = exact_sum(&all, station);
            assert!(under < 1 << 80, "{owned:?}");
            let scaled = over << 32;
            let [low, high] = [figures.load, figures.load + figures.pairs].map(u128::from);
            assert!(low * under <= scaled, "{figures:?}");
            assert_eq!(scaled < high * under, figures.pairs > 0, "{figures:?}");
            assert!(figures.pairs > 0 || over == 0, "{figures:?}");
            above += usize::from(low * under < scaled);
        }
    }
    assert!(above > 50, "{above}");
}

/// A station with a pair and no load, whose share is one of 2^32 + 1; the others with pairs have a load.
#[test]
fn a_pair_without_load() {
    let owned = Owned::built(&no_share());
    let (_, records) = Asked(COUNTED, &owned).drawn_loads().unwrap();
    for (station, figures) in read_all(&records).into_iter().enumerate() {
        let without_load = figures.pairs > 0 && figures.load == 0;
        assert_eq!(without_load, station == UNSHARED, "{figures:?}");
    }
    let unshared = &records[DRAWN_BYTES * UNSHARED..][..DRAWN_BYTES];
    let bytes = [0, 96, 0, 0, 0, 0, 0, 0, 0, 0, 0x3D, 0xF0, 0, 0, 0, 0, 0, 0];
    assert_eq!(unshared, bytes);
}

/// 9 sets the named parts of all to 0 and leaves what stands behind them; 8 leaves everything.
#[test]
fn cause_9_clears_the_records() {
    for (layers, number_of) in [(65, 9), (64, 0)] {
        let owned = Owned::built(&ladder(layers, 2));
        let (stations, scratch) = (owned.stations, owned.scratch_length());
        let named = DRAWN_BYTES * stations;
        for short in [0, 1] {
            let (mut pairs, mut loads) = (vec![7; stations + 2], vec![7; stations + 2]);
            let (mut records, mut area) = (vec![7; named + 2 - 3 * short], vec![7; scratch + 2]);
            let input = owned.input();
            let answer =
                COUNTED.drawn_loads(input, &mut pairs, &mut loads, &mut records, &mut area);
            let expected = if short == 1 { 8 } else { number_of };
            assert_eq!(number(&answer), expected);
            let sevens = match expected {
                8 => (stations + 2, named - 1),
                9 => (2, 2),
                _ => continue,
            };
            let left = |table: &[u64]| table.iter().filter(|entry| **entry == 7).count();
            assert_eq!((left(&pairs), left(&loads)), (sevens.0, sevens.0));
            let bytes = records.iter().filter(|byte| **byte == 7).count();
            assert_eq!(bytes, sevens.1);
            let zeros = records.iter().filter(|byte| **byte == 0).count();
            assert_eq!(zeros + bytes, records.len());
        }
    }
}

//! A plan that is accepted, and whose layered plan is refused with 9.

use planconv::{Names, Record};
use planpage::layered::layered;
use planpage::plan::{Plan, Units};
use planpage::survey::{Shown, Survey, MOST_WALKS};

/// Layers behind station 31: the stations of each, and the first and the last slot in which all of them hear all of
/// the layer before. Station 31 has over 2^64 walks to the last layer if they begin after slot 1.
const LAYERS: [(u16, u16, u16); 23] = [
    (2, 2, 13),
    (1, 2, 16),
    (2, 2, 20),
    (1, 3, 23),
    (2, 5, 25),
    (1, 7, 28),
    (2, 9, 31),
    (1, 11, 34),
    (1, 13, 38),
    (1, 15, 41),
    (1, 18, 44),
    (1, 21, 46),
    (1, 23, 49),
    (1, 26, 52),
    (1, 29, 54),
    (2, 33, 56),
    (1, 36, 58),
    (2, 39, 60),
    (1, 42, 62),
    (2, 45, 63),
    (1, 48, 63),
    (2, 51, 63),
    (1, 54, 63),
];

/// A plan whose walks from 0 are short, since 0 and 31 send to most others in slot 1; those through 31 alone, which
/// hears later, go through all layers.
fn crowded() -> Vec<u8> {
    let mut records: Vec<Record> = (0..31).map(|hearer| [1, 31, hearer]).collect();
    let mut last = 31..=31_u16;
    for (width, first, until) in LAYERS {
        let next = last.start() - width..=last.start() - 1;
        for slot in first..=until {
            for sender in last.clone() {
                records.extend(next.clone().map(|hearer| [slot, sender, hearer]));
            }
        }
        last = next;
    }
    records.extend((1..29).map(|hearer| [1, 0, hearer]));
    records.extend((1..10).map(|slot| [slot, 0, 31]));
    // 0 to 30 by way of 1, before all walks by way of 31
    records.extend((2..=63).map(|slot| [slot, 1, 30]));
    records.extend((2..=63).map(|slot| [slot, 2, 30]));
    records.sort_unstable();
    records.dedup();
    let fields = records.iter().flatten();
    fields.flat_map(|field| field.to_be_bytes()).collect()
}

#[test]
fn a_layered_plan_may_have_too_many_walks() {
    let plan = Plan::new(crowded(), Names::new(), Units::Older).unwrap();
    let layers = layered(&plan.records, plan.sizes, 31);
    assert_eq!(layers.walks((0, 30), Units::Older, 8), Err(9));
    let survey = Survey::new(&plan).unwrap();
    let pair = survey.pairs.iter().find(|pair| pair.ends == (0, 30));
    let pair = pair.unwrap();
    assert_eq!((pair.pair.hops, pair.walks.len()), (2, MOST_WALKS));
    let inside = pair.inside.iter().find(|inside| inside.station == 31);
    let inside = inside.unwrap();
    assert!(inside.through > 0);
    assert_eq!(inside.shown, Shown::Places(Vec::new()));
    assert!(survey.adds_up());
}

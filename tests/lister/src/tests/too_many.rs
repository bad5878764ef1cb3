//! Cause 9 where readings are dropped: for some h alone.

use super::asked::{Asked, BOTH};
use super::support::Owned;
use crate::answer::number;
use crate::means::{Means, COUNTED};
use crate::plan::KEPT;
use crate::reach_cases::Builder;
use crate::shortest::NO_WALK;
use crate::stale::{ladder_with_gap, ladder_with_short_cut};
use crate::ways::Way;

/// The number of reach from 0, and hops and count of a station.
fn reached(means: Means, builder: &Builder, keeping: usize, station: usize) -> (u8, u16, u64) {
    let owned = Owned::built(builder).keeping_for(keeping);
    let (number, tables) = Asked(means, &owned).reach(0);
    let (hops, counts) = (&tables.station_hops, &tables.station_counts);
    (number, hops[station], counts[station])
}

/// A ladder of 65 layers and a short cut to layer 33 by a station that hears in slot 1 and sends in slot 33. With
/// h = 32 or more layer 33 is 2 hops away, and the last layer has 2^32 walks of 34 hops. With less the short
/// cut is dropped: 2^64 walks of 65 hops, one too many.
#[test]
fn too_many_walks_where_readings_are_dropped_early() {
    let plan = ladder_with_short_cut(65, 33);
    for keeping in [32, 33, 64, KEPT] {
        assert_eq!(reached(COUNTED, &plan, keeping, 130), (0, 34, 1 << 32));
    }
    for keeping in [1, 2, 31] {
        assert_eq!(reached(COUNTED, &plan, keeping, 130), (9, 0, 0));
    }
    // the same with 4 layers, the short cut to layer 3, and a largest count of 7
    let plan = ladder_with_short_cut(4, 3);
    for means in BOTH.map(|means| means.within(7)) {
        assert_eq!(reached(means, &plan, 1, 8), (9, 0, 0));
        assert_eq!(reached(means, &plan, 2, 8), (0, 3, 2));
        assert_eq!(reached(means, &plan, KEPT, 8), (0, 3, 2));
    }
}

/// A ladder of 65 layers in slots 1 to 32 and 34 to 66. With h = 1 no reading crosses the gap, and 2^31 is the
/// largest count; with more there are 2^64 walks to the last layer, one too many.
#[test]
fn too_many_walks_where_readings_are_kept() {
    let plan = ladder_with_gap(65, 32);
    assert_eq!(reached(COUNTED, &plan, 1, 63), (0, 32, 1 << 31));
    assert_eq!(reached(COUNTED, &plan, 1, 65), (0, NO_WALK, 0));
    for keeping in [2, 3, 64, KEPT] {
        assert_eq!(reached(COUNTED, &plan, keeping, 63), (9, 0, 0));
    }
    // the same with 4 layers in slots 1, 2, 4 and 5, and a largest count of 7
    let plan = ladder_with_gap(4, 2);
    for means in BOTH.map(|means| means.within(7)) {
        assert_eq!(reached(means, &plan, 1, 3), (0, 2, 2));
        assert_eq!(reached(means, &plan, 2, 3), (9, 0, 0));
        assert_eq!(reached(means, &plan, KEPT, 3), (9, 0, 0));
    }
}

/// Every operation that takes h gives 9 there too, on every pair from the source.
#[test]
fn too_many_walks_in_every_operation() {
    for (plan, keeping, refused) in [
        (ladder_with_short_cut(65, 33), 31, true),
        (ladder_with_short_cut(65, 33), 32, false),
        (ladder_with_gap(65, 32), 1, false),
        (ladder_with_gap(65, 32), 2, true),
    ] {
        let owned = Owned::built(&plan).keeping_for(keeping);
        let asked = Asked(COUNTED, &owned);
        let expected = if refused { 9 } else { 0 };
        for destination in [1, 64, 130] {
            let ends = (0, destination);
            assert_eq!(number(&asked.pair(ends)), expected);
            assert_eq!(number(&asked.set(ends, &[1, 2])), expected);
            assert_eq!(number(&asked.verdict(ends, &[])), expected);
            let (mut buffer, mut scratch) = (vec![7; owned.slots], vec![7; owned.scratch_length()]);
            let way = COUNTED.way(Way::First, owned.input(), ends, &mut buffer, &mut scratch);
            assert_eq!(number(&way), expected);
        }
        assert_eq!(number(&asked.loads(1)), expected);
        assert_eq!(number(&asked.loads(0)), 0);
    }
}

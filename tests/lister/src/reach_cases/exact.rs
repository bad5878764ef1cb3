//! Cause 9 holds exactly where an appearance or a station has over 2^64−1 shortest walks in the end.
//!
//! The plans are made for any number of bits in the place of 64, so that small ones can be listed.
//! Each asserts what its label says: which places have too many walks, and the exact numbers.

use super::ladders::Builder;
use super::Case;
use crate::means::COUNT_LIMIT;
use crate::plan::{LEAST_TURNAROUND, MOST_TURNAROUND};
use crate::reach::{Entry, NO_ENTRY};

/// A plan, the number of reach from its source, and the number where appearances alone count.
#[derive(Clone, Debug)]
pub struct Exact {
    pub label: String,
    pub builder: Builder,
    pub number: u8,
    /// The number of foremost, which looks for cause 9 at no station.
    pub of_appearances: u8,
}

impl Exact {
    fn accepted(label: String, builder: &Builder) -> Exact {
        Exact {
            label,
            builder: builder.clone(),
            number: 0,
            of_appearances: 0,
        }
    }

    /// A station has too many walks, and no appearance.
    fn refused_for_a_station(label: String, builder: &Builder) -> Exact {
        Exact {
            number: 9,
            ..Exact::accepted(label, builder)
        }
    }

    fn refused(label: String, builder: &Builder) -> Exact {
        Exact {
            of_appearances: 9,
            ..Exact::refused_for_a_station(label, builder)
        }
    }

    /// Reach from the source; for a refused call with entries behind the named ones.
    pub fn case(&self) -> Case {
        let case = self.builder.case(&self.label).stating(self.number);
        match self.number {
            0 => case,
            _ => case.longer([2, 3, 4, 5]),
        }
    }
}

pub fn cases() -> Vec<Case> {
    let mut plans = exact_plans(64, LEAST_TURNAROUND);
    plans.extend(three_slots_a_hop());
    plans.extend(most_records());
    plans.iter().map(Exact::case).collect()
}

/// The plans for a largest count of 2^bits−1, with a turnaround. A hop is that much later than the one
/// before it.
pub fn exact_plans(bits: usize, turnaround: usize) -> Vec<Exact> {
    let scale = Scale { bits, turnaround };
    [
        scale.one_slot(),
        scale.several_slots(),
        scale.two_slots_a_hop(),
        scale.undercut_in_the_slot(),
        scale.undercut_later(),
        scale.undercut_after_sending_on(),
        scale.appearance_alone(),
        scale.source_again(),
        scale.last_places(),
        scale.one_way(),
        scale.one_way_undercut(),
        scale.one_way_source_again(),
        scale.waiting(),
    ]
    .concat()
}

/// Asserts which appearances (station, slot) and which stations have over `limit` shortest walks.
fn assert_over(limit: u64, builder: &Builder, appearances: &[(usize, usize)], stations: &[usize]) {
    let entries = builder.entries();
    assert_eq!(entries.appearances_over(limit), appearances);
    assert_eq!(entries.stations_over(limit), stations);
}

/// Asserts hops and count of an appearance.
fn assert_appearance(builder: &Builder, place: (usize, usize), hops: usize, count: u128) {
    let entry = builder.entries().appearance(place.0, place.1);
    let hops = hops as u16;
    assert_eq!(entry, Entry { hops, count });
}

/// Asserts hops and count of a station.
fn assert_station(builder: &Builder, station: usize, hops: usize, count: u128) {
    let entry = builder.entries().station(station);
    let hops = hops as u16;
    assert_eq!(entry, Entry { hops, count });
}

/// The number of bits of a count, and the turnaround.
#[derive(Clone, Copy, Debug)]
struct Scale {
    bits: usize,
    turnaround: usize,
}

impl Scale {
    /// 2^bits, the least number that is too large.
    fn top(self) -> u128 {
        1 << self.bits
    }

    fn half(self) -> u128 {
        self.top() / 2
    }

    /// The source alone.
    fn start(self) -> Builder {
        Builder::turning(self.turnaround)
    }

    /// The slot of a hop, a turnaround after that of the hop before.
    fn slot(self, hop: usize) -> usize {
        self.start().slot_of(hop)
    }

    /// A label; a turnaround above 1 stands behind it.
    fn label(self, text: String) -> String {
        match self.turnaround {
            LEAST_TURNAROUND => text,
            turnaround => format!("{text}, g {turnaround}"),
        }
    }

    fn assert_over(self, builder: &Builder, appearances: &[(usize, usize)], stations: &[usize]) {
        let limit = (self.top() - 1) as u64;
        assert_over(limit, builder, appearances, stations);
    }

    /// As many layers as bits: the last two stations have half of 2^bits walks each, and as many hops
    /// as bits; their slot is the last. A station sends to the next layer, and hears none of it.
    fn halves(self) -> (Builder, Vec<usize>) {
        let mut builder = self.start();
        let last = builder.sent_ladder(self.bits, 2);
        (builder, last)
    }

    /// One layer fewer, of three stations. Two have half of 2^bits, less one, walks each, the third has
    /// one: a station of the two hears all three before it, the third hears the third alone. The last
    /// layer has as many of the third kind as asked.
    fn odd(self, singles: usize) -> (Builder, Vec<usize>, Vec<usize>) {
        let mut builder = self.start();
        let mut last = vec![0];
        let mut single = vec![0];
        for hop in 1..self.bits {
            let slot = self.slot(hop);
            let pair = builder.layer(2);
            for station in &pair {
                builder.hear_all(slot, *station, &last);
            }
            let is_last = hop + 1 == self.bits;
            let next = builder.layer(if is_last { singles } else { 1 });
            for station in &next {
                builder.send(slot, single[0], *station);
            }
            last = [pair.as_slice(), &next].concat();
            single = next;
        }
        (builder, last[..2].to_vec(), single)
    }

    /// The walks come to a station in one slot: 2^bits in two ways, one less, and one more.
    fn one_slot(self) -> Vec<Exact> {
        let bits = self.bits;
        let (mut builder, last) = self.halves();
        let end = builder.station();
        builder.meet_all(self.slot(bits + 1), end, &last);
        self.assert_over(&builder, &[(end, self.slot(bits + 1))], &[end]);
        assert_appearance(&builder, (end, self.slot(bits + 1)), bits + 1, self.top());
        let label = self.label(format!("2^{bits} as two halves in one slot"));
        let mut plans = vec![Exact::refused(label, &builder)];
        for singles in 1..=3 {
            let (mut builder, pair, single) = self.odd(singles);
            let end = builder.station();
            builder.meet_all(self.slot(bits), end, &pair);
            builder.meet_all(self.slot(bits), end, &single);
            let count = self.top() - 2 + singles as u128;
            assert_appearance(&builder, (end, self.slot(bits)), bits, count);
            assert_station(&builder, end, bits, count);
            if singles == 1 {
                self.assert_over(&builder, &[], &[]);
                let label = self.label(format!("2^{bits}-1 in one slot"));
                plans.push(Exact::accepted(label, &builder));
            } else {
                self.assert_over(&builder, &[(end, self.slot(bits))], &[end]);
                let label = self.label(format!("2^{bits}+{} in one slot", singles - 2));
                plans.push(Exact::refused(label, &builder));
            }
        }
        plans
    }

    /// The walks come to a station in several slots, and no appearance has too many.
    fn several_slots(self) -> Vec<Exact> {
        let bits = self.bits;
        let (mut builder, last) = self.halves();
        let end = builder.station();
        builder.meet(self.slot(bits + 1), end, last[0]);
        builder.meet(self.slot(bits + 2), end, last[1]);
        self.assert_over(&builder, &[], &[end]);
        assert_appearance(&builder, (end, self.slot(bits + 1)), bits + 1, self.half());
        assert_appearance(&builder, (end, self.slot(bits + 2)), bits + 1, self.half());
        assert_station(&builder, end, bits + 1, self.top());
        let label = self.label(format!("2^{bits} at a station, half in each of two slots"));
        let halves = Exact::refused_for_a_station(label, &builder);

        let (mut builder, pair, single) = self.odd(1);
        let end = builder.station();
        builder.meet(self.slot(bits), end, pair[0]);
        builder.meet(self.slot(bits + 1), end, pair[1]);
        builder.meet(self.slot(bits + 2), end, single[0]);
        self.assert_over(&builder, &[], &[]);
        assert_station(&builder, end, bits, self.top() - 1);
        let label = self.label(format!("2^{bits}-1 at a station, over three slots"));
        let below = Exact::accepted(label, &builder);
        builder.meet(self.slot(bits + 3), end, single[0]);
        self.assert_over(&builder, &[], &[end]);
        assert_station(&builder, end, bits, self.top());
        let label = self.label(format!("2^{bits} at a station, over four slots"));
        let top = Exact::refused_for_a_station(label, &builder);

        let (mut builder, pair, single) = self.odd(1);
        let end = builder.station();
        builder.meet_all(self.slot(bits), end, &[pair[0], pair[1], single[0]]);
        builder.meet(self.slot(bits + 1), end, single[0]);
        self.assert_over(&builder, &[], &[end]);
        assert_appearance(&builder, (end, self.slot(bits)), bits, self.top() - 1);
        assert_station(&builder, end, bits, self.top());
        let label = self.label(format!("2^{bits} at a station, all but 1 in one slot"));
        let one_more = Exact::refused_for_a_station(label, &builder);
        vec![halves, below, top, one_more]
    }

    /// Rows of stations that meet the next in two slots; no appearance has too many.
    fn two_slots_a_hop(self) -> Vec<Exact> {
        let bits = self.bits;
        let mut builder = self.start();
        let last = builder.slot_ladder(bits - 1, 2);
        self.assert_over(&builder, &[], &[]);
        assert_station(&builder, last, bits - 1, self.half());
        let label = self.label(format!("2^{} at a station, two slots a hop", bits - 1));
        let half = Exact::accepted(label, &builder);

        let mut builder = self.start();
        let last = builder.slot_ladder(bits, 2);
        self.assert_over(&builder, &[], &[last]);
        assert_station(&builder, last, bits, self.top());
        let label = self.label(format!("2^{bits} at a station, two slots a hop"));
        vec![half, Exact::refused_for_a_station(label, &builder)]
    }

    /// The first records of a slot bring 2^bits walks; another record of the slot brings fewer hops.
    fn undercut_in_the_slot(self) -> Vec<Exact> {
        let bits = self.bits;
        let (mut builder, last) = self.halves();
        let end = builder.station();
        let near = builder.station();
        builder.meet(1, 0, near);
        builder.meet_all(self.slot(bits + 1), end, &last);
        assert!(last[0] < last[1] && last[1] < end && end < near);
        self.assert_over(&builder, &[(end, self.slot(bits + 1))], &[end]);
        assert_appearance(&builder, (end, self.slot(bits + 1)), bits + 1, self.top());
        builder.meet(self.slot(bits + 1), end, near);
        self.assert_over(&builder, &[], &[]);
        assert_station(&builder, end, 2, 1);
        let label = self.label(format!("2^{bits} undercut by a later record of the slot"));
        let later = Exact::accepted(label, &builder);

        let mut builder = self.start();
        let near = builder.station();
        let last = builder.ladder(bits, 2);
        let end = builder.station();
        builder.meet(1, 0, near);
        builder.meet_all(self.slot(bits + 1), end, &last);
        assert!(near < last[0] && last[0] < last[1] && last[1] < end);
        self.assert_over(&builder, &[(end, self.slot(bits + 1))], &[end]);
        builder.meet(self.slot(bits + 1), end, near);
        self.assert_over(&builder, &[], &[]);
        assert_station(&builder, end, 2, 1);
        let label = self.label(format!(
            "2^{bits} undercut by an earlier record of the slot"
        ));
        vec![later, Exact::accepted(label, &builder)]
    }

    /// A station has 2^bits walks over two slots, and a later slot brings fewer hops. The station that
    /// brings them hears the 2^bits in that slot; where it hears the source too, they are undercut.
    fn undercut_later(self) -> Vec<Exact> {
        let bits = self.bits;
        let (mut builder, last) = self.halves();
        let end = builder.station();
        let near = builder.station();
        builder.meet(1, 0, near);
        builder.meet(self.slot(bits + 1), end, last[0]);
        builder.meet(self.slot(bits + 2), end, last[1]);
        self.assert_over(&builder, &[], &[end]);
        assert_station(&builder, end, bits + 1, self.top());
        builder.meet(self.slot(bits + 3), end, near);
        self.assert_over(&builder, &[(near, self.slot(bits + 3))], &[]);
        assert_appearance(&builder, (near, self.slot(bits + 3)), bits + 2, self.top());
        assert_station(&builder, near, 1, 1);
        assert_station(&builder, end, 2, 1);
        let label = self.label(format!("2^{bits} at a station undercut later, but sent on"));
        let sent_on = Exact::refused(label, &builder);
        builder.meet(self.slot(bits + 3), 0, near);
        self.assert_over(&builder, &[], &[]);
        assert_appearance(&builder, (near, self.slot(bits + 3)), 1, 1);
        assert_station(&builder, end, 2, 1);
        let label = self.label(format!("2^{bits} at a station undercut in a later slot"));
        vec![sent_on, Exact::accepted(label, &builder)]
    }

    /// As above; the 2^bits that are sent on come first in their slot, and are undercut there.
    fn undercut_after_sending_on(self) -> Vec<Exact> {
        let bits = self.bits;
        let (mut builder, last) = self.halves();
        let end = builder.station();
        let other = builder.station();
        let near = builder.station();
        builder.meet(1, 0, other);
        builder.meet(1, 0, near);
        builder.meet(self.slot(bits + 1), end, last[0]);
        builder.meet(self.slot(bits + 2), end, last[1]);
        builder.meet(self.slot(bits + 3), end, near);
        self.assert_over(&builder, &[(near, self.slot(bits + 3))], &[]);
        assert!(end < other && other < near);
        builder.meet(self.slot(bits + 3), other, near);
        self.assert_over(&builder, &[], &[]);
        assert_appearance(&builder, (near, self.slot(bits + 3)), 2, 1);
        let label = self.label(format!("2^{bits} sent on and undercut in that slot"));
        vec![Exact::accepted(label, &builder)]
    }

    /// An appearance has 2^bits walks, or one less, and more hops than its station.
    fn appearance_alone(self) -> Vec<Exact> {
        let bits = self.bits;
        let (mut builder, last) = self.halves();
        let end = builder.station();
        builder.meet(1, 0, end);
        builder.meet_all(self.slot(bits + 1), end, &last);
        self.assert_over(&builder, &[(end, self.slot(bits + 1))], &[]);
        assert_appearance(&builder, (end, self.slot(bits + 1)), bits + 1, self.top());
        assert_station(&builder, end, 1, 1);
        let label = self.label(format!("2^{bits} at an appearance alone"));
        let top = Exact::refused(label, &builder);

        let (mut builder, pair, single) = self.odd(1);
        let end = builder.station();
        builder.meet(1, 0, end);
        builder.meet_all(self.slot(bits), end, &[pair[0], pair[1], single[0]]);
        self.assert_over(&builder, &[], &[]);
        assert_appearance(&builder, (end, self.slot(bits)), bits, self.top() - 1);
        assert_station(&builder, end, 1, 1);
        let label = self.label(format!("2^{bits}-1 at an appearance alone"));
        vec![top, Exact::accepted(label, &builder)]
    }

    /// The source is reached again: 2^bits and one less in one slot, and half in each of two.
    fn source_again(self) -> Vec<Exact> {
        let bits = self.bits;
        let (mut builder, last) = self.halves();
        builder.meet_all(self.slot(bits + 1), 0, &last);
        self.assert_over(&builder, &[(0, self.slot(bits + 1))], &[]);
        assert_appearance(&builder, (0, self.slot(bits + 1)), bits + 1, self.top());
        assert_station(&builder, 0, 0, 1);
        let label = self.label(format!("2^{bits} at the source again"));
        let top = Exact::refused(label, &builder);

        let (mut builder, pair, single) = self.odd(1);
        builder.meet_all(self.slot(bits), 0, &[pair[0], pair[1], single[0]]);
        self.assert_over(&builder, &[], &[]);
        assert_appearance(&builder, (0, self.slot(bits)), bits, self.top() - 1);
        let label = self.label(format!("2^{bits}-1 at the source again"));
        let below = Exact::accepted(label, &builder);

        let (mut builder, last) = self.halves();
        builder.meet(self.slot(bits + 1), 0, last[0]);
        builder.meet(self.slot(bits + 2), 0, last[1]);
        self.assert_over(&builder, &[], &[]);
        assert_appearance(&builder, (0, self.slot(bits + 1)), bits + 1, self.half());
        assert_appearance(&builder, (0, self.slot(bits + 2)), bits + 1, self.half());
        let slots = match self.turnaround {
            LEAST_TURNAROUND => "half in each of two slots",
            _ => "in two slots",
        };
        let label = self.label(format!("2^{bits} at the source again, {slots}"));
        vec![top, below, Exact::accepted(label, &builder)]
    }

    /// n 256, T 255: the last appearance, or the last station, is the only one with 2^bits walks.
    fn last_places(self) -> Vec<Exact> {
        let bits = self.bits;
        let (mut builder, last) = self.halves();
        builder.grow(256, 255);
        builder.meet(1, 0, 255);
        builder.meet_all(255, 255, &last);
        self.assert_over(&builder, &[(255, 255)], &[]);
        assert_appearance(&builder, (255, 255), bits + 1, self.top());
        let label = self.label(format!("n 256, T 255, 2^{bits} at the last appearance"));
        let appearance = Exact::refused(label, &builder);

        let (mut builder, last) = self.halves();
        builder.grow(256, 255);
        builder.meet(254, 255, last[0]);
        builder.meet(255, 255, last[1]);
        self.assert_over(&builder, &[], &[255]);
        assert_station(&builder, 255, bits + 1, self.top());
        let label = self.label(format!("n 256, T 255, 2^{bits} at the last station"));
        let station = Exact::refused_for_a_station(label, &builder);

        let (mut builder, pair, single) = self.odd(1);
        builder.grow(256, 255);
        builder.meet_all(255, 255, &[pair[0], pair[1], single[0]]);
        self.assert_over(&builder, &[], &[]);
        assert_appearance(&builder, (255, 255), bits, self.top() - 1);
        let label = self.label(format!("n 256, T 255, 2^{bits}-1 at the last appearance"));
        vec![appearance, station, Exact::accepted(label, &builder)]
    }

    /// A station hears the last layer and does not send to it, or sends to it and is not reached.
    fn one_way(self) -> Vec<Exact> {
        let bits = self.bits;
        let (mut builder, last) = self.halves();
        let end = builder.station();
        builder.hear_all(self.slot(bits + 1), end, &last);
        self.assert_over(&builder, &[(end, self.slot(bits + 1))], &[end]);
        assert_station(&builder, end, bits + 1, self.top());
        let label = self.label(format!("one way, 2^{bits} in one slot"));
        let heard = Exact::refused(label, &builder);

        let (mut builder, last) = self.halves();
        let end = builder.station();
        for station in &last {
            builder.send(self.slot(bits + 1), end, *station);
        }
        self.assert_over(&builder, &[], &[]);
        assert_eq!(builder.entries().station(end), NO_ENTRY);
        let label = self.label(format!("one way, 2^{bits} against two records"));
        vec![heard, Exact::accepted(label, &builder)]
    }

    /// A station has 2^bits walks over two slots, and a later slot brings fewer hops. The station that
    /// brings them does not hear the 2^bits.
    fn one_way_undercut(self) -> Vec<Exact> {
        let bits = self.bits;
        let (mut builder, last) = self.halves();
        let end = builder.station();
        let near = builder.station();
        builder.send(1, 0, near);
        builder.send(self.slot(bits + 1), last[0], end);
        builder.send(self.slot(bits + 2), last[1], end);
        self.assert_over(&builder, &[], &[end]);
        builder.send(self.slot(bits + 3), near, end);
        self.assert_over(&builder, &[], &[]);
        assert_station(&builder, end, 2, 1);
        let label = self.label(format!("one way, 2^{bits} undercut in a later slot"));
        let undercut = Exact::accepted(label, &builder);
        builder.send(self.slot(bits + 3), end, near);
        self.assert_over(&builder, &[(near, self.slot(bits + 3))], &[]);
        assert_appearance(&builder, (near, self.slot(bits + 3)), bits + 2, self.top());
        let label = self.label(format!("one way, 2^{bits} undercut, and sent on"));
        vec![undercut, Exact::refused(label, &builder)]
    }

    /// The source hears the last layer, or sends to it.
    fn one_way_source_again(self) -> Vec<Exact> {
        let bits = self.bits;
        let (mut builder, last) = self.halves();
        builder.hear_all(self.slot(bits + 1), 0, &last);
        self.assert_over(&builder, &[(0, self.slot(bits + 1))], &[]);
        assert_appearance(&builder, (0, self.slot(bits + 1)), bits + 1, self.top());
        let label = self.label(format!("one way, 2^{bits} heard by the source"));
        let heard = Exact::refused(label, &builder);

        let (mut builder, last) = self.halves();
        for station in &last {
            builder.send(self.slot(bits + 1), 0, *station);
        }
        self.assert_over(&builder, &[], &[]);
        assert_eq!(
            builder.entries().appearance(0, self.slot(bits + 1)),
            NO_ENTRY
        );
        assert_station(&builder, last[0], 1, 1);
        let label = self.label(format!("one way, the source sends to 2^{bits}"));
        vec![heard, Exact::accepted(label, &builder)]
    }

    /// A station hears half of 2^bits walks in a slot, half in the next, and one walk of two hops in the
    /// slot after. It sends on when the first half has waited, when both have, and when all have. With the
    /// smallest turnaround nothing waits, and there are no plans.
    fn waiting(self) -> Vec<Exact> {
        let bits = self.bits;
        if self.turnaround == LEAST_TURNAROUND {
            return Vec::new();
        }
        let plan = |wait: usize| {
            let (mut builder, last) = self.halves();
            let end = builder.station();
            let near = builder.station();
            let next = builder.station();
            let slot = self.slot(bits + 1);
            builder.send(1, 0, near);
            builder.send(slot, last[0], end);
            builder.send(slot + 1, last[1], end);
            builder.send(slot + 2, near, end);
            let sent = slot + self.turnaround + wait;
            builder.send(sent, end, next);
            assert_station(&builder, end, 2, 1);
            (builder, (next, sent))
        };
        let (one, place) = plan(0);
        self.assert_over(&one, &[], &[]);
        assert_appearance(&one, place, bits + 2, self.half());
        let (both, place) = plan(1);
        self.assert_over(&both, &[place], &[place.0]);
        assert_appearance(&both, place, bits + 2, self.top());
        let (all, place) = plan(2);
        self.assert_over(&all, &[], &[]);
        assert_appearance(&all, place, 3, 1);
        let label = |text: &str| self.label(format!("2^{bits} sent on, {text}"));
        vec![
            Exact::accepted(label("half of it waits"), &one),
            Exact::refused(label("fewer hops wait"), &both),
            Exact::accepted(label("undercut after the wait"), &all),
        ]
    }
}

/// Rows of stations that meet the next in three slots. After 41 hops the last station but one hears
/// 2 × 3^40 walks in the last slot.
fn three_slots_a_hop() -> Vec<Exact> {
    let mut builder = Builder::start();
    let last = builder.slot_ladder(40, 3);
    assert_over(COUNT_LIMIT, &builder, &[], &[]);
    assert_station(&builder, last, 40, 3_u128.pow(40));
    let label = "3^40 at a station, three slots a hop".to_string();
    let accepted = Exact::accepted(label, &builder);

    let mut builder = Builder::start();
    let last = builder.slot_ladder(41, 3);
    assert_over(COUNT_LIMIT, &builder, &[(last - 1, 123)], &[last]);
    assert_station(&builder, last, 41, 3_u128.pow(41));
    let label = "3^41 at a station, three slots a hop".to_string();
    vec![accepted, Exact::refused(label, &builder)]
}

/// The largest turnaround: 13 layers of 8 stations that send to the next layer in four slots, so that each
/// of the last 8 has 2^62 walks. A station hears three or four of them in one slot.
pub fn most_turnaround() -> Vec<Exact> {
    let plan = |heard: usize| {
        let mut builder = Builder::turning(MOST_TURNAROUND);
        let mut last = vec![0];
        let mut first = 1;
        for _ in 0..13 {
            let next = builder.layer(8);
            for slot in first..first + 4 {
                for station in &next {
                    builder.hear_all(slot, *station, &last);
                }
            }
            first += 3 + MOST_TURNAROUND;
            last = next;
        }
        let end = builder.station();
        builder.hear_all(first, end, &last[..heard]);
        assert_station(&builder, last[0], 13, 1 << 62);
        assert_appearance(&builder, (end, first), 14, (heard as u128) << 62);
        (builder, (end, first))
    };
    let (three, _) = plan(3);
    assert_over(COUNT_LIMIT, &three, &[], &[]);
    let (four, place) = plan(4);
    assert_over(COUNT_LIMIT, &four, &[place], &[place.0]);
    vec![
        Exact::accepted("3 times 2^62, g 16".to_string(), &three),
        Exact::refused("2^64 as 4 times 2^62, g 16".to_string(), &four),
    ]
}

/// 8,192 records: 17 layers of 15 stations, and stations of one layer that meet in later slots.
fn most_records() -> Vec<Exact> {
    let ladder = |layer: usize| {
        let mut builder = Builder::start();
        let last = builder.ladder(17, 15);
        let stations = 15 * layer + 1..15 * layer + 16;
        let mut slot = 18;
        while builder.contacts() < 8192 {
            let of = |a: usize| (a + 1..stations.end).map(move |b| (a, b));
            let pairs = stations.clone().flat_map(of);
            for (a, b) in pairs.take((8192 - builder.contacts()) / 2) {
                builder.meet(slot, a, b);
            }
            slot += 1;
        }
        assert_station(&builder, last[14], 17, 15_u128.pow(16));
        builder
    };
    let builder = ladder(0);
    assert_over(COUNT_LIMIT, &builder, &[], &[]);
    assert_appearance(&builder, (1, 18), 2, 14);
    let label = "8192 records, 15^16 at the last layer".to_string();
    let accepted = Exact::accepted(label, &builder);

    let builder = ladder(16);
    let entries = builder.entries();
    assert!(entries.stations_over(COUNT_LIMIT).is_empty());
    assert!(entries.appearances_over(COUNT_LIMIT).contains(&(255, 18)));
    assert_appearance(&builder, (255, 18), 18, 14 * 15_u128.pow(16));
    let label = "8192 records, 14 times 15^16 at appearances".to_string();
    vec![accepted, Exact::refused(label, &builder)]
}

//! Plans whose units drop readings: small ones with their shortest walks from the first station to the last, all
//! plans of a detour, one detour with T around h, drawn plans, one with a detour for each two stations, and
//! ladders with cause 9 for some h alone; and g and h in their limits and outside of them.

use crate::cases::{valid_records, Record, PLAN_A};
use crate::one_way::WalkList;
use crate::pair_cases::{counted_where_large, LabelledPlan};
use crate::plan::{read, LEAST_TURNAROUND, MOST_SLOTS};
use crate::plans::{pairs, subsets, Owned};
use crate::random::Random;
use crate::reach_cases::Builder;
use crate::shortest::shortest_walks;
use crate::walk::walks_from;

/// g and h in their limits.
pub const KNOWN_TERMS: [(u16, u16); 9] = [
    (1, 1),
    (1, 2),
    (1, 3),
    (1, 4),
    (2, 2),
    (2, 3),
    (16, 16),
    (1, 254),
    (16, 255),
];
/// g in its limits, and h below g or above 255; some h are in their limits in their low bits alone.
pub const WRONG_TERMS: [(u16, u16); 10] = [
    (1, 0),
    (2, 0),
    (2, 1),
    (3, 2),
    (16, 15),
    (1, 256),
    (1, 257),
    (2, 258),
    (16, 272),
    (3, 65535),
];
/// g outside of its limits, and h inside or outside of its own.
pub const WRONG_TURNAROUND_TERMS: [(u16, u16); 5] =
    [(0, 0), (0, 256), (17, 16), (17, 255), (65535, 0)];

/// The end of a label: g and h.
pub fn terms_text((turnaround, keeping): (u16, u16)) -> String {
    format!("g {turnaround}, h {keeping}")
}

/// The plan of records with g and h, which its label names.
pub fn with_terms(
    label: &str,
    sizes: (u16, u16),
    records: &[Record],
    terms: (u16, u16),
) -> LabelledPlan {
    let label = format!("{label}, {}", terms_text(terms));
    let plan = LabelledPlan::of_records(&label, sizes, records);
    plan.turning(terms.0).keeping_for(terms.1)
}

/// Plan A with g and h, which its label names.
pub fn plan_a(label: &str, terms: (u16, u16)) -> LabelledPlan {
    with_terms(label, (5, 4), &PLAN_A, terms)
}

/// A plan, g and h, and the shortest walks from the first station to the last.
#[derive(Clone, Copy, Debug)]
pub struct StalePlan {
    pub label: &'static str,
    /// n and T
    pub sizes: (usize, usize),
    /// g and h
    pub terms: (usize, usize),
    pub records: &'static [Record],
    /// The shortest walks.
    pub there: WalkList,
    /// The shortest walks where units keep every reading.
    pub kept: WalkList,
    /// How many of the walks have each station interior.
    pub through: &'static [u64],
    /// For each station that is no end, the sum over its appearances of the walks to it × the walks on from it, as
    /// many hops as the shortest ones together. A walk is in it as often as it calls at the station.
    pub products: &'static [u64],
}

impl StalePlan {
    pub fn owned(&self) -> Owned {
        let ((stations, slots), (turnaround, keeping)) = (self.sizes, self.terms);
        let plan = Owned::new(stations, slots, self.records);
        plan.turning(turnaround).keeping_for(keeping)
    }

    pub fn labelled(&self) -> LabelledPlan {
        let narrow = |(one, other): (usize, usize)| (one as u16, other as u16);
        with_terms(
            self.label,
            narrow(self.sizes),
            self.records,
            narrow(self.terms),
        )
    }

    /// Whether some walk calls twice at a station.
    pub fn calls_twice(&self) -> bool {
        self.products != self.through
    }

    /// The last station.
    pub fn last(&self) -> usize {
        self.sizes.0 - 1
    }
}

/// From 0 to 1, to 2, back to 1 and to 3, a slot each.
pub const DETOUR: [Record; 4] = [(1, 0, 1), (2, 1, 2), (3, 2, 1), (4, 1, 3)];

/// The same with a second detour from 1 to 2 and back.
pub const TWO_DETOURS: [Record; 6] = [
    (1, 0, 1),
    (2, 1, 2),
    (3, 2, 1),
    (4, 1, 2),
    (5, 2, 1),
    (6, 1, 3),
];

/// Plans by hand.
pub const STALE_PLANS: [StalePlan; 20] = [
    StalePlan {
        label: "twice at 1, no path",
        sizes: (4, 4),
        terms: (1, 1),
        records: &DETOUR,
        there: &[&[0, 1, 2, 3]],
        kept: &[&[0, 3]],
        through: &[0, 1, 1, 0],
        products: &[0, 2, 1, 0],
    },
    StalePlan {
        label: "twice at 1, T = h + 2",
        sizes: (4, 4),
        terms: (1, 2),
        records: &DETOUR,
        there: &[&[0, 1, 2, 3]],
        kept: &[&[0, 3]],
        through: &[0, 1, 1, 0],
        products: &[0, 2, 1, 0],
    },
    StalePlan {
        label: "nothing dropped, T = h + 1",
        sizes: (4, 4),
        terms: (1, 3),
        records: &DETOUR,
        there: &[&[0, 3]],
        kept: &[&[0, 3]],
        through: &[0, 1, 0, 0],
        products: &[0, 1, 0, 0],
    },
    StalePlan {
        label: "nothing dropped, T = h",
        sizes: (4, 4),
        terms: (1, 4),
        records: &DETOUR,
        there: &[&[0, 3]],
        kept: &[&[0, 3]],
        through: &[0, 1, 0, 0],
        products: &[0, 1, 0, 0],
    },
    StalePlan {
        label: "twice at 1, g = h",
        sizes: (4, 7),
        terms: (2, 2),
        records: &[(1, 0, 1), (3, 1, 2), (5, 2, 1), (7, 1, 3)],
        there: &[&[0, 1, 2, 3]],
        kept: &[&[0, 3]],
        through: &[0, 1, 1, 0],
        products: &[0, 2, 1, 0],
    },
    StalePlan {
        label: "three times at 1, twice at 2",
        sizes: (4, 6),
        terms: (1, 1),
        records: &TWO_DETOURS,
        there: &[&[0, 1, 2, 3, 4, 5]],
        kept: &[&[0, 5]],
        through: &[0, 1, 1, 0],
        products: &[0, 3, 2, 0],
    },
    StalePlan {
        label: "three times at 1, 2 and 3 in turn",
        sizes: (5, 6),
        terms: (1, 1),
        records: &[
            (1, 0, 1),
            (2, 1, 2),
            (2, 1, 3),
            (3, 2, 1),
            (3, 3, 1),
            (4, 1, 2),
            (4, 1, 3),
            (5, 2, 1),
            (5, 3, 1),
            (6, 1, 4),
        ],
        there: &[
            &[0, 1, 3, 5, 7, 9],
            &[0, 1, 3, 6, 8, 9],
            &[0, 2, 4, 5, 7, 9],
            &[0, 2, 4, 6, 8, 9],
        ],
        kept: &[&[0, 9]],
        through: &[0, 4, 3, 3, 0],
        products: &[0, 12, 4, 4, 0],
    },
    StalePlan {
        label: "three walks with one detour",
        sizes: (4, 6),
        terms: (1, 3),
        records: &TWO_DETOURS,
        there: &[&[0, 1, 2, 5], &[0, 1, 4, 5], &[0, 3, 4, 5]],
        kept: &[&[0, 5]],
        through: &[0, 3, 3, 0],
        products: &[0, 6, 3, 0],
    },
    StalePlan {
        label: "two walks, both twice at 1",
        sizes: (4, 5),
        terms: (1, 2),
        records: &[(1, 0, 1), (2, 1, 2), (3, 1, 2), (4, 2, 1), (5, 1, 3)],
        there: &[&[0, 1, 3, 4], &[0, 2, 3, 4]],
        kept: &[&[0, 4]],
        through: &[0, 2, 2, 0],
        products: &[0, 4, 2, 0],
    },
    StalePlan {
        label: "a walk twice at 1 and a path",
        sizes: (7, 4),
        terms: (1, 2),
        records: &[
            (1, 0, 1),
            (1, 0, 3),
            (2, 1, 2),
            (2, 3, 4),
            (3, 2, 1),
            (3, 4, 5),
            (4, 1, 6),
            (4, 5, 6),
        ],
        there: &[&[0, 2, 4, 6], &[1, 3, 5, 7]],
        kept: &[&[0, 6]],
        through: &[0, 1, 1, 1, 1, 1, 0],
        products: &[0, 2, 1, 1, 1, 1, 0],
    },
    StalePlan {
        label: "a walk twice and a path once at 1",
        sizes: (6, 4),
        terms: (1, 2),
        records: &[
            (1, 0, 1),
            (1, 0, 3),
            (2, 1, 2),
            (2, 3, 4),
            (3, 2, 1),
            (3, 4, 1),
            (4, 1, 5),
        ],
        there: &[&[0, 2, 4, 6], &[1, 3, 5, 6]],
        kept: &[&[0, 6]],
        through: &[0, 2, 1, 1, 1, 0],
        products: &[0, 3, 1, 1, 1, 0],
    },
    StalePlan {
        label: "twice at 1, a path a hop longer",
        sizes: (8, 5),
        terms: (1, 2),
        records: &[
            (1, 0, 1),
            (1, 0, 3),
            (2, 1, 2),
            (2, 3, 4),
            (3, 2, 1),
            (3, 4, 5),
            (4, 1, 7),
            (4, 5, 6),
            (5, 6, 7),
        ],
        there: &[&[0, 2, 4, 6]],
        kept: &[&[0, 6]],
        through: &[0, 1, 1, 0, 0, 0, 0, 0],
        products: &[0, 2, 1, 0, 0, 0, 0, 0],
    },
    StalePlan {
        label: "1 sends what it heard first",
        sizes: (4, 4),
        terms: (1, 2),
        records: &[(1, 0, 1), (1, 0, 2), (2, 2, 1), (3, 1, 3), (4, 1, 3)],
        there: &[&[0, 3]],
        kept: &[&[0, 3], &[0, 4]],
        through: &[0, 1, 0, 0],
        products: &[0, 1, 0, 0],
    },
    StalePlan {
        label: "1 sends all that it still has",
        sizes: (3, 4),
        terms: (1, 2),
        records: &[(1, 0, 1), (2, 0, 1), (3, 0, 1), (4, 1, 2)],
        there: &[&[1, 3], &[2, 3]],
        kept: &[&[0, 3], &[1, 3], &[2, 3]],
        through: &[0, 2, 0],
        products: &[0, 2, 0],
    },
    StalePlan {
        label: "what 1 hears first is dropped",
        sizes: (4, 6),
        terms: (1, 2),
        records: &[(1, 0, 1), (3, 0, 2), (4, 2, 1), (5, 1, 3)],
        there: &[&[1, 2, 3]],
        kept: &[&[0, 3]],
        through: &[0, 1, 1, 0],
        products: &[0, 1, 1, 0],
    },
    StalePlan {
        label: "the first hop is in any slot",
        sizes: (3, 9),
        terms: (1, 1),
        records: &[(8, 0, 1), (9, 1, 2)],
        there: &[&[0, 1]],
        kept: &[&[0, 1]],
        through: &[0, 1, 0],
        products: &[0, 1, 0],
    },
    StalePlan {
        label: "the slots from t + g to t + h",
        sizes: (3, 7),
        terms: (2, 4),
        records: &[
            (1, 0, 1),
            (2, 1, 2),
            (3, 1, 2),
            (4, 1, 2),
            (5, 1, 2),
            (6, 1, 2),
            (7, 1, 2),
        ],
        there: &[&[0, 2], &[0, 3], &[0, 4]],
        kept: &[&[0, 2], &[0, 3], &[0, 4], &[0, 5], &[0, 6]],
        through: &[0, 3, 0],
        products: &[0, 3, 0],
    },
    StalePlan {
        label: "one slot alone, g = h",
        sizes: (3, 7),
        terms: (3, 3),
        records: &[
            (1, 0, 1),
            (2, 1, 2),
            (3, 1, 2),
            (4, 1, 2),
            (5, 1, 2),
            (6, 1, 2),
            (7, 1, 2),
        ],
        there: &[&[0, 3]],
        kept: &[&[0, 3], &[0, 4], &[0, 5], &[0, 6]],
        through: &[0, 1, 0],
        products: &[0, 1, 0],
    },
    StalePlan {
        label: "all is dropped, no walk",
        sizes: (3, 4),
        terms: (1, 2),
        records: &[(1, 0, 1), (4, 1, 2)],
        there: &[],
        kept: &[&[0, 1]],
        through: &[0, 0, 0],
        products: &[0, 0, 0],
    },
    StalePlan {
        label: "the source hears its reading again",
        sizes: (3, 5),
        terms: (1, 1),
        records: &[(1, 0, 1), (2, 1, 0), (5, 0, 2)],
        there: &[&[2]],
        kept: &[&[2]],
        through: &[0, 0, 0],
        products: &[0, 0, 0],
    },
];

/// The g up to 3 and h up to 4 that are allowed together.
pub fn small_terms() -> Vec<(usize, usize)> {
    let keepings = |turnaround| (turnaround..=4).map(move |keeping| (turnaround, keeping));
    (LEAST_TURNAROUND..=3).flat_map(keepings).collect()
}

/// Records around a detour: from 0 to 1, from 1 to 2 and back, and from 1 to 3.
const AROUND_DETOURS: [Record; 11] = [
    (1, 0, 1),
    (2, 1, 2),
    (3, 1, 2),
    (3, 2, 1),
    (4, 1, 2),
    (5, 1, 2),
    (5, 2, 1),
    (6, 1, 3),
    (7, 1, 3),
    (7, 2, 1),
    (8, 1, 3),
];

/// All plans of these records.
pub fn detours() -> Vec<Owned> {
    let plan = |records: Vec<Record>| Owned::new(4, 8, &records);
    subsets(&AROUND_DETOURS).map(plan).collect()
}

/// Some of them, with each small g and h in turn.
pub fn some_detours(step: usize) -> Vec<LabelledPlan> {
    let terms = small_terms();
    let plan = |(index, records): (usize, Vec<Record>)| {
        let (turnaround, keeping) = terms[index % terms.len()];
        let label = format!("detours {index}");
        let terms = (turnaround as u16, keeping as u16);
        with_terms(&label, (4, 8), &records, terms)
    };
    let chosen = subsets(&AROUND_DETOURS).skip(step - 1).step_by(step);
    chosen.enumerate().map(plan).collect()
}

/// The h of `detours_around`.
const AROUND: [u16; 7] = [2, 3, 4, 16, 253, 254, 255];

/// From 0 to 1, to 2, back to 1 in slots 1 to 3 and to 3 in the last slot, with T = h, h + 1 and h + 2. In the
/// last alone what 1 hears first is dropped.
pub fn detours_around() -> Vec<LabelledPlan> {
    let mut plans = Vec::new();
    for keeping in AROUND {
        for slots in (keeping..=keeping + 2).filter(|slots| (4..=MOST_SLOTS as u16).contains(slots))
        {
            let mut records = DETOUR;
            records[3].0 = slots;
            let label = format!("detour, T {slots}");
            plans.push(with_terms(&label, (4, slots), &records, (1, keeping)));
        }
    }
    plans
}

/// n, T, g and h at which the stations do not divide evenly into blocks, or into blocks of few: what is kept takes
/// room of them.
pub const STALE_BLOCKS: [(u16, u16, u16, u16); 10] = [
    (8, 4, 1, 2),
    (8, 5, 1, 3),
    (10, 9, 2, 5),
    (34, 8, 1, 4),
    (34, 20, 1, 16),
    (64, 23, 1, 4),
    (64, 60, 16, 47),
    (256, 64, 4, 16),
    (256, 255, 16, 64),
    (256, 255, 1, 253),
];

/// Plans of these sizes. The first station sends to every second one in slot 1; each of these sends to its
/// neighbour and hears it g slots later, and sends to the last station h + 1 slots after slot 1. All stations
/// between are in one walk, and each second one twice.
pub fn stale_blocks() -> Vec<LabelledPlan> {
    let plan = |(stations, slots, turnaround, keeping): (u16, u16, u16, u16)| {
        let mut records = Vec::new();
        for one in (1..stations - 1).step_by(2) {
            records.extend([
                (1, 0, one),
                (1 + turnaround, one, one + 1),
                (1 + 2 * turnaround, one + 1, one),
                (keeping + 2, one, stations - 1),
            ]);
        }
        records.sort_unstable();
        let label = format!("blocks n {stations}, T {slots}");
        let terms = (turnaround, keeping);
        counted_where_large(with_terms(&label, (stations, slots), &records, terms))
    };
    STALE_BLOCKS.map(plan).to_vec()
}

/// A plan of up to 5 stations, 9 slots and 20 records, with small g and h drawn.
pub fn random_stale_plan(random: &mut Random) -> Owned {
    let terms = small_terms();
    let (turnaround, keeping) = terms[random.below(terms.len())];
    let (stations, slots) = (random.between(3, 5), random.between(4, 9));
    let wanted = random.between(4, 20);
    let records = valid_records(random, stations, slots, wanted);
    let plan = Owned::new(stations, slots, &records);
    plan.turning(turnaround).keeping_for(keeping)
}

/// Whether some pair has a shortest walk that calls twice at a station.
pub fn calls_twice(owned: &Owned) -> bool {
    let plan = read(owned.input()).expect("a valid plan");
    pairs(owned.stations).any(|(source, destination)| {
        let walks = walks_from(&plan, source);
        let shortest = shortest_walks(&walks, destination);
        shortest.iter().any(|walk| !walk.is_path())
    })
}

/// The seed of the drawn plans; each label names it.
const SEED: u64 = 25;

/// Drawn plans with small g and h. Of each two the second has a shortest walk that calls twice at a station.
pub fn drawn_stale_plans(plans: usize) -> Vec<LabelledPlan> {
    let mut random = Random::new(SEED);
    let mut labelled = Vec::new();
    while labelled.len() < plans {
        let owned = random_stale_plan(&mut random);
        let index = labelled.len();
        if index % 2 == 0 || calls_twice(&owned) {
            let [stations, slots, turnaround, keeping] =
                [owned.stations, owned.slots, owned.turnaround, owned.keeping]
                    .map(|number| number as u16);
            let terms = terms_text((turnaround, keeping));
            let label = format!("drawn stale {index}, seed {SEED}, {terms}");
            let plan = LabelledPlan::new(&label, (stations, slots), owned.bytes);
            labelled.push(plan.turning(turnaround).keeping_for(keeping));
        }
    }
    labelled
}

/// Plans whose number from the first station depends on h: 9 or accepted. With h = 1 no reading crosses the gap;
/// the short cut to layer 33 is there from h = 32 on.
pub fn ladders_around() -> Vec<(LabelledPlan, u8)> {
    let built = |label: &str, builder: &Builder, keeping: u16, number: u8| {
        let label = format!("{label}, {}", terms_text((1, keeping)));
        let plan = LabelledPlan::built(&label, builder).keeping_for(keeping);
        (plan, number)
    };
    let gap = ladder_with_gap(65, 32);
    let short_cut = ladder_with_short_cut(65, 33);
    let whole = ladder_with_gap(65, 65);
    let fits = ladder_with_gap(64, 64);
    vec![
        built("ladder with a gap", &gap, 1, 0),
        built("ladder with a gap", &gap, 2, 9),
        built("ladder with a short cut", &short_cut, 1, 9),
        built("ladder with a short cut", &short_cut, 31, 9),
        built("ladder with a short cut", &short_cut, 32, 0),
        built("sent ladder of 65", &whole, 1, 9),
        built("sent ladder of 64", &fits, 1, 0),
    ]
}

/// A ladder of two stations a layer, a slot a layer; behind a layer one slot is left out.
pub fn ladder_with_gap(layers: usize, behind: usize) -> Builder {
    let mut builder = Builder::start();
    let mut last = vec![0];
    for at in 1..=layers {
        let next = builder.layer(2);
        let slot = at + usize::from(at > behind);
        next.iter()
            .for_each(|hearer| builder.hear_all(slot, *hearer, &last));
        last = next;
    }
    builder
}

/// A ladder of two stations a layer, a slot a layer, and a station that hears the source in slot 1 and sends to
/// both stations of a layer in their slot. It is the last station.
pub fn ladder_with_short_cut(layers: usize, to: usize) -> Builder {
    let mut builder = ladder_with_gap(layers, layers);
    let between = builder.station();
    builder.send(1, 0, between);
    for hearer in [2 * to - 1, 2 * to] {
        builder.send(to, between, hearer);
    }
    builder
}

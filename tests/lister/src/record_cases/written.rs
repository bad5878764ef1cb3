//! Records that a station can have: those of plan A, zeros, and figures at the limits and between them.

use super::Case;
use crate::drawing::{Figures, DRAWN_BYTES};
use crate::drawing_samples::EDGES;
use crate::means::LISTED;
use crate::plans::Owned;

pub fn cases() -> Vec<Case> {
    [plan_a(), by_hand(), stations(), edges()].concat()
}

/// A case of the record of figures.
fn written(label: &str, station: u16, load: u64, pairs: u64) -> Case {
    let figures = Figures {
        station,
        load,
        pairs,
    };
    Case::new(label, &figures.record()).reading(station, load, pairs)
}

/// The records of plan A; its pairs and loads are those of document 01.
fn plan_a() -> Vec<Case> {
    let owned = Owned::new(5, 4, &crate::cases::PLAN_A);
    let mut tables = [vec![0; 5], vec![0; 5]];
    let mut records = vec![0; 5 * DRAWN_BYTES];
    let mut scratch = vec![0; owned.scratch_length()];
    let [pairs, loads] = &mut tables;
    let answer = LISTED.drawn_loads(owned.input(), pairs, loads, &mut records, &mut scratch);
    answer.expect("plan A is accepted");
    let stated = [
        (0, 0),
        (2_863_311_530, 2),
        (5_726_623_060, 2),
        (17_179_869_184, 4),
        (0, 0),
    ];
    let records = records.chunks_exact(DRAWN_BYTES).zip(stated).enumerate();
    let case = |(station, (record, (load, pairs))): (usize, (&[u8], (u64, u64)))| {
        let case = Case::new(&format!("plan A, station {station}"), record);
        case.reading(station as u16, load, pairs)
    };
    records.map(case).collect()
}

/// Records by their bits.
fn by_hand() -> Vec<Case> {
    vec![
        Case::of_bits("idle", 0, 0, 0).reading(0, 0, 0),
        Case::of_bits("idle, station 9", 9, 0, 0).reading(9, 0, 0),
        Case::of_bits("load 1, pairs 1", 1, 0x3DF0 << 48, 0x3E00 << 48).reading(1, 1, 1),
        Case::of_bits("load 0, pairs 1", 2, 0, 0x3DF0 << 48).reading(2, 0, 1),
        Case::of_bits("a share of 1", 3, 0x3FF0 << 48, 0x3FF0_0000_0010_0000).reading(
            3,
            1 << 32,
            1,
        ),
        Case::of_bits(
            "a share of 2/3",
            4,
            0x3FE5_5555_5540_0000,
            0x3FE5_5555_5560_0000,
        )
        .reading(4, 2_863_311_530, 1),
        written("more load than pairs can have", 5, (1 << 49) - 1, 1),
        written("no load, and many pairs", 6, 0, (1 << 49) - 1),
        written("load 0, pairs 64770", 7, 0, 64770),
    ]
}

/// Every station near a limit.
fn stations() -> Vec<Case> {
    let stations = [0, 1, 2, 127, 128, 129, 254, 255];
    let case = |station: u16| written(&format!("station {station}"), station, 3 << 32, 5);
    stations.map(case).to_vec()
}

/// Loads and pairs at which something changes, each with each.
fn edges() -> Vec<Case> {
    let mut cases = Vec::new();
    for load in EDGES {
        for pairs in EDGES.into_iter().filter(|pairs| *pairs > 0 || load == 0) {
            let label = format!("written, load {load}, pairs {pairs}");
            cases.push(written(&label, 200, load, pairs));
        }
    }
    cases
}

//! Ladders: few layers listed entire, parts of the list of 64 layers, and 65 layers, which give 9.

use std::ops::Range;

use super::{marks, Arguments, Case, Step};
use crate::reach_cases;
use crate::ways::Way;

pub fn cases() -> Vec<Case> {
    [whole_ladders(), neighbours(), too_many(), one_way()].concat()
}

/// The ladder from the source to the first (0) or second (1) station of the last layer, without its list.
pub fn ladder(layers: usize, end: usize) -> Case {
    let builder = reach_cases::ladder(layers, 2);
    let destination = 2 * layers - 1 + end;
    let label = format!("ladder of {layers} layers, to {destination}");
    let stations = (0, destination as u16);
    Case::unlisted(&label, builder.sizes(), builder.bytes(), stations)
}

/// Path `index` of a ladder of two stations a layer, to the first (0) or second (1) station of the last.
///
/// A path visits one station of each layer; they are the binary digits of its index, the first layer's
/// the highest, and the last layer's is given. Slot 1 leads on by positions 0 and 1 and back by 2 and 3.
/// The slot to a later layer leads on by four positions, ordered by the station that it leaves, then by
/// the one that it reaches, and back by the four behind them.
pub fn ladder_path(layers: usize, end: usize, index: u64) -> Vec<u16> {
    path_by(layers, end, index, 8)
}

/// The same of a ladder whose stations send to the next layer alone: no position leads back.
pub fn sent_ladder_path(layers: usize, end: usize, index: u64) -> Vec<u16> {
    path_by(layers, end, index, 4)
}

/// The same with so many positions in the slot to a later layer, and half as many in slot 1.
fn path_by(layers: usize, end: usize, index: u64, in_slot: usize) -> Vec<u16> {
    let digit = |layer: usize| {
        if layer == layers {
            end
        } else {
            (index >> (layers - 1 - layer) & 1) as usize
        }
    };
    let position = |layer: usize| match layer {
        1 => digit(1),
        _ => in_slot / 2 + in_slot * (layer - 2) + 2 * digit(layer - 1) + digit(layer),
    };
    (1..=layers).map(|layer| position(layer) as u16).collect()
}

/// The paths of a ladder with the indices from `low` to `high`, `high` excluded.
fn paths(layers: usize, end: usize, low: u64, high: u64) -> Vec<Vec<u16>> {
    let path = |index: u64| ladder_path(layers, end, index);
    (low..high).map(path).collect()
}

/// Every path of a ladder of few layers, "last" twice, and the first path again.
fn whole_ladders() -> Vec<Case> {
    let mut cases = Vec::new();
    for (layers, end) in [(1, 0), (2, 1), (5, 0), (5, 1), (6, 1)] {
        let bare = ladder(layers, end);
        let sizes = (bare.pair.stations, bare.pair.slots);
        let stations = (bare.pair.source, bare.pair.destination);
        let case = Case::on_bytes(&bare.label, sizes, bare.bytes, stations);
        let paths = case.list.len();
        assert_eq!(paths, 1 << (layers - 1));
        let path = format!("path {layers}");
        let mut stated = vec![path.as_str(); paths];
        stated.extend(["last", "last", &path]);
        cases.push(case.first().next(paths + 1).first().stating(&stated));
    }
    cases
}

/// 64 layers, 2^63 paths to a station: the first, those around the advance of the first hop, and the last.
fn neighbours() -> Vec<Case> {
    let mut cases = Vec::new();
    for end in [0, 1] {
        let part = |name: &str, low: u64, high: u64| {
            let bare = ladder(64, end);
            Case {
                label: format!("{}, {name}", bare.label),
                list: paths(64, end, low, high),
                ..bare
            }
        };
        let (half, all) = (1 << 62, 1 << 63);
        let first = part("first ways", 0, 9).first().next(8).first().next(1);
        cases.push(first.stating(&["path 64"; 11]));
        let middle = part("first hop advanced", half - 2, half + 2);
        let offered = middle.list[0].clone();
        let middle = middle.beginning(&offered, 70).next(3);
        cases.push(middle.stating(&["path 64"; 3]));
        let last = part("last ways", all - 2, all);
        let offered = last.list[0].clone();
        let last = last.beginning(&offered, 66).next(3);
        cases.push(last.stating(&["path 64", "last", "last"]));
    }
    let mut offered = ladder_path(64, 0, 5);
    offered[63] = ladder_path(64, 1, 5)[63];
    let other = ladder(64, 0).beginning(&offered, 64).next(1);
    cases.push(Case {
        label: "ladder of 64 layers, to 127, offered a way to 128".to_string(),
        ..other.stating(&["refused 10"])
    });
    cases
}

/// 64 layers whose stations send to the next layer alone: the first ways and the last, and none back. 65
/// layers: 9.
fn one_way() -> Vec<Case> {
    let bare = |layers: usize| {
        let builder = reach_cases::sent_ladder(layers, 2);
        let last = 2 * layers as u16;
        let label = format!("ladder of {layers} layers, sent");
        Case::unlisted(&label, builder.sizes(), builder.bytes(), (0, last))
    };
    let part = |name: &str, indices: Range<u64>| {
        let bare = bare(64);
        let path = |index: u64| sent_ladder_path(64, 1, index);
        Case {
            label: format!("{}, {name}", bare.label),
            list: indices.map(path).collect(),
            ..bare
        }
    };
    let all = 1 << 63;
    let first = part("first ways", 0..5).first().next(4).first();
    let last = part("last ways", all - 3..all);
    let offered = last.list[0].clone();
    let last = last.beginning(&offered, 65).next(4);
    let mut back = part("back", 0..0);
    (back.pair.source, back.pair.destination) = (back.pair.destination, 0);
    let too_many = bare(65).first().next(1);
    vec![
        first.stating(&["path 64"; 6]),
        last.stating(&["path 64", "path 64", "last", "last"]),
        back.first().next(1).stating(&["none", "refused 10"]),
        too_many.stating(&["refused 9"; 2]),
    ]
}

/// 65 layers: every call gives 9, and the buffer stays.
fn too_many() -> Vec<Case> {
    let on_marks = ladder(65, 1)
        .holding(marks(67))
        .longer_scratch(5)
        .first()
        .then(Step::Write(66, 65535))
        .next(1)
        .then(Step::Write(65, 0))
        .first();
    let bare = ladder(65, 0);
    let short = Arguments {
        scratch_length: bare.pair.scratch_length - 1,
        ..bare.pair
    };
    let on_a_path = bare
        .beginning(&ladder_path(65, 0, 3), 65)
        .next(2)
        .then(Step::Call(Way::Next, short))
        .first();
    vec![
        on_marks.stating(&["refused 9"; 3]),
        Case {
            label: "ladder of 65 layers, to 129, offered a way".to_string(),
            list: paths(65, 0, 0, 9),
            ..on_a_path.stating(&["refused 9", "refused 9", "refused 8", "refused 9"])
        },
        other_source(),
    ]
}

/// 65 layers from the first station of the first layer: a hop fewer, 2^63 paths, and no 9.
fn other_source() -> Case {
    let mut case = ladder(65, 1);
    case.label = "ladder of 65 layers, 1 to 130".to_string();
    case.pair.source = 1;
    case.list = paths(65, 1, 0, 9);
    for path in &mut case.list {
        path.remove(0);
    }
    case.first().next(4).stating(&["path 64"; 5])
}

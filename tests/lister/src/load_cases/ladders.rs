//! Ladders within the limits, and those that pass them; the layers are one slot apart.

use super::Input;
use crate::plans::Owned;
use crate::reach_cases::{falling_ladder, spaced_ladder, spaced_sent_ladder, Builder};

pub fn inputs() -> Vec<Input> {
    [layers(), one_way(), slots()].concat()
}

/// Ladders whose stations send to the next layer alone; 16 layers of two have 33 stations.
fn one_way() -> Vec<Input> {
    let mut inputs = Vec::new();
    for layers in [1, 2, 15, 16] {
        let stated = if layers > 15 { 1 } else { 0 };
        for (name, builder) in [
            ("sent", spaced_sent_ladder(1, layers, 2)),
            ("falling", falling_ladder(layers)),
        ] {
            let label = format!("{name} ladder of {layers} layers of 2");
            let bytes = Owned::built(&builder).bytes;
            inputs.push(Input::on_bytes(&label, bytes, stated));
        }
    }
    inputs
}

/// Layers of stations; 16 layers of two have 33 stations.
fn layers() -> Vec<Input> {
    let mut ladders: Vec<(usize, usize)> = (1..=16).map(|layers| (layers, 2)).collect();
    ladders.extend([(5, 3), (10, 3), (11, 3), (7, 4), (6, 5), (5, 6), (4, 7)]);
    ladders.extend([
        (3, 10),
        (2, 15),
        (2, 16),
        (1, 31),
        (1, 32),
        (31, 1),
        (32, 1),
    ]);
    let input = |(layers, width): &(usize, usize)| layered(1, *layers, *width);
    ladders.iter().map(input).collect()
}

/// Layers a turnaround apart, of stations that meet all of the next one.
pub fn layered(turnaround: usize, layers: usize, width: usize) -> Input {
    let builder = spaced_ladder(turnaround, layers, width);
    let label = format!("ladder of {layers} layers of {width}");
    let stated = if layers * width > 31 { 1 } else { 0 };
    Input::on_bytes(&label, Owned::built(&builder).bytes, stated)
}

/// Rows of stations that meet the next in several slots; 32 hops have 33 stations, and 64 slots are
/// too many.
fn slots() -> Vec<Input> {
    let rows = [
        (31, 2),
        (32, 1),
        (21, 3),
        (15, 4),
        (16, 4),
        (12, 5),
        (9, 7),
        (7, 9),
        (8, 8),
        (3, 21),
        (2, 31),
        (1, 63),
        (1, 64),
    ];
    let input = |(hops, width): (usize, usize)| {
        let mut builder = Builder::turning(1);
        builder.slot_ladder(hops, width);
        let label = format!("row of {hops} hops, {width} slots a hop");
        let stated = if hops > 31 || hops * width > 63 { 1 } else { 0 };
        Input::on_bytes(&label, Owned::built(&builder).bytes, stated)
    };
    rows.map(input).to_vec()
}

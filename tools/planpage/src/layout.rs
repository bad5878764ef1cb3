//! Where stations, slots and contacts lie in the picture.

use planconv::{Record, Sizes};

/// The height of a station's row, and of the line of slot numbers above the first.
pub const ROW: f64 = 34.0;
pub const TOP: f64 = 30.0;
/// What is left below the last row, and below that of a tall plan, whose slot numbers stand there too.
const BOTTOM: (f64, f64) = (8.0, 24.0);
/// The fewest stations of a tall plan.
const TALL: usize = 12;

/// The distance of two lanes at most and at least, and the width that the plan has if they allow it.
const WIDEST: f64 = 18.0;
const NARROWEST: f64 = 3.2;
const WIDTH: f64 = 1700.0;
/// The blank at both sides of a slot's lanes together, and the least width of a slot, at most and at least.
const BLANK: f64 = 0.8;
const LEAST_SLOT: (f64, f64) = (12.0, 54.0);

/// The column of a slot.
#[derive(Clone, Debug, PartialEq)]
pub struct Column {
    pub from: f64,
    pub width: f64,
}

/// The plan's part of the picture.
#[derive(Clone, Debug)]
pub struct Layout {
    /// For each slot its column.
    pub columns: Vec<Column>,
    /// For each contact the middle of its lane.
    pub lanes: Vec<f64>,
    /// The distance of two lanes.
    pub pitch: f64,
    pub width: f64,
    pub height: f64,
}

/// Whether slot numbers stand below the plan too.
pub fn is_tall(stations: usize) -> bool {
    stations >= TALL
}

/// The height of a station's line.
pub fn line(station: usize) -> f64 {
    TOP + ROW * (station as f64 + 0.5)
}

/// For each contact of a slot a lane; contacts of one lane have no station and no line in common. The number of
/// lanes is the least.
fn lanes_of(records: &[Record]) -> Vec<usize> {
    let span = |[_, a, b]: &Record| (*a.min(b), *a.max(b));
    let mut order: Vec<usize> = (0..records.len()).collect();
    order.sort_by_key(|at| span(&records[*at]));
    let mut ends: Vec<u16> = Vec::new();
    let mut lanes = vec![0; records.len()];
    for at in order {
        let (low, high) = span(&records[at]);
        let free = ends.iter().position(|end| *end < low);
        let lane = free.unwrap_or(ends.len());
        ends.resize(ends.len().max(lane + 1), 0);
        ends[lane] = high;
        lanes[at] = lane;
    }
    lanes
}

impl Layout {
    pub fn new(records: &[Record], sizes: Sizes) -> Layout {
        let slots: Vec<Vec<usize>> = (1..=sizes.slots)
            .map(|slot| {
                let of_slot = |record: &&Record| usize::from(record[0]) == slot;
                let records: Vec<Record> = records.iter().filter(of_slot).copied().collect();
                lanes_of(&records)
            })
            .collect();
        let in_slot = |lanes: &Vec<usize>| lanes.iter().max().map_or(0, |lane| lane + 1);
        let all: usize = slots.iter().map(in_slot).sum();
        let places = all as f64 + BLANK * slots.len() as f64;
        let pitch = (WIDTH / places.max(1.0)).clamp(NARROWEST, WIDEST);
        let least = (WIDTH / slots.len() as f64 / 2.0).clamp(LEAST_SLOT.0, LEAST_SLOT.1);
        let (mut columns, mut lanes) = (Vec::new(), Vec::new());
        let mut from = 0.0;
        for slot in &slots {
            let taken = in_slot(slot) as f64 * pitch;
            let width = (taken + BLANK * pitch).max(least);
            let first = from + (width - taken) / 2.0 + pitch / 2.0;
            lanes.extend(slot.iter().map(|lane| first + pitch * *lane as f64));
            columns.push(Column { from, width });
            from += width;
        }
        let below = if is_tall(sizes.stations) {
            BOTTOM.1
        } else {
            BOTTOM.0
        };
        Layout {
            columns,
            lanes,
            pitch,
            width: from,
            height: TOP + ROW * sizes.stations as f64 + below,
        }
    }
}

#[cfg(test)]
mod tests {
    use super::*;

    #[test]
    fn contacts_of_a_lane_lie_apart() {
        let records = [[1, 0, 3], [1, 1, 2], [1, 2, 1], [1, 4, 5], [1, 5, 4]];
        let lanes = lanes_of(&records);
        assert_eq!(lanes.iter().max(), Some(&2));
        for (at, [_, a, b]) in records.iter().enumerate() {
            for (other, [_, c, d]) in records.iter().enumerate().skip(at + 1) {
                let apart = a.max(b) < c.min(d) || c.max(d) < a.min(b);
                assert!(apart || lanes[at] != lanes[other]);
            }
        }
    }

    #[test]
    fn lanes_lie_in_the_column_of_their_slot() {
        let records = [[1, 0, 1], [1, 1, 0], [3, 0, 2], [3, 1, 2]];
        let sizes = Sizes {
            stations: 3,
            slots: 3,
        };
        let layout = Layout::new(&records, sizes);
        assert_eq!(layout.columns.len(), 3);
        for ([slot, ..], x) in records.iter().zip(&layout.lanes) {
            let column = &layout.columns[usize::from(*slot) - 1];
            assert!(column.from < *x && *x < column.from + column.width);
        }
        assert_ne!(layout.lanes[0], layout.lanes[1]);
        let last = layout.columns.last().unwrap();
        assert_eq!(layout.width, last.from + last.width);
    }

    #[test]
    fn an_empty_plan_has_a_column() {
        let sizes = Sizes {
            stations: 1,
            slots: 1,
        };
        let layout = Layout::new(&[], sizes);
        assert!(layout.width > 0.0 && layout.lanes.is_empty());
    }
}

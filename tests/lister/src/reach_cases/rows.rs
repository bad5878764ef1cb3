//! Row and its sister.

use super::Case;

pub fn cases() -> Vec<Case> {
    [parts(), large_parts(), refusals(), orders()].concat()
}

/// A case of row; the label names its arguments.
fn on((n, slots): (u16, u16), station: u16, length: usize, stated: u8) -> Case {
    let label = format!("row {station} of n {n}, T {slots}, {length} entries");
    Case::on_table(&label, (n, slots), station, length).stating(stated)
}

/// Parts of small tables: every station, tables of the named length and longer.
fn parts() -> Vec<Case> {
    let mut cases: Vec<Case> = (0..5).map(|station| on((5, 4), station, 25, 0)).collect();
    cases.extend([0, 2, 4].map(|station| on((5, 4), station, 26, 0)));
    cases.extend([0, 4].map(|station| on((5, 4), station, 1000, 0)));
    cases.push(on((1, 1), 0, 2, 0));
    cases.push(on((1, 1), 0, 3, 0));
    cases.push(on((2, 1), 1, 4, 0));
    cases.push(on((4, 5), 3, 24, 0));
    cases
}

/// Parts at the limits of n and T.
fn large_parts() -> Vec<Case> {
    vec![
        on((256, 255), 0, 65536, 0),
        on((256, 255), 128, 65536, 0),
        on((256, 255), 255, 65536, 0),
        on((256, 255), 255, 65600, 0),
        on((256, 1), 0, 512, 0),
        on((256, 1), 255, 512, 0),
        on((1, 255), 0, 256, 0),
        on((2, 255), 1, 513, 0),
        on((255, 254), 254, 65025, 0),
    ]
}

/// Causes 1, 6 and 8, each alone.
fn refusals() -> Vec<Case> {
    let mut cases = Vec::new();
    for sizes in [(0, 4), (257, 4), (65535, 4)] {
        cases.push(on(sizes, 0, 65600, 1));
    }
    for sizes in [(5, 0), (5, 256), (5, 65535), (0, 0), (65535, 65535)] {
        cases.push(on(sizes, 0, 65600, 1));
    }
    for station in [5, 6, 256, 65535] {
        cases.push(on((5, 4), station, 25, 6));
        cases.push(on((5, 4), station, 65600, 6));
    }
    cases.push(on((256, 255), 256, 65600, 6));
    for station in [0, 2, 4] {
        cases.push(on((5, 4), station, 24, 8));
        cases.push(on((5, 4), station, 0, 8));
    }
    cases.push(on((5, 4), 0, 5, 8));
    cases.push(on((5, 4), 0, 20, 8));
    cases.push(on((256, 255), 0, 65535, 8));
    cases.push(on((256, 255), 255, 65535, 8));
    cases.push(on((256, 255), 0, 256, 8));
    cases.push(on((1, 1), 0, 1, 8));
    cases
}

/// Two and three of the causes 1, 6 and 8.
fn orders() -> Vec<Case> {
    vec![
        on((0, 4), 1, 25, 1),
        on((257, 4), 257, 65600, 1),
        on((5, 256), 5, 65600, 1),
        on((257, 4), 0, 25, 1),
        on((5, 256), 0, 25, 1),
        on((5, 0), 4, 4, 1),
        on((0, 0), 0, 0, 1),
        on((65535, 65535), 65535, 0, 1),
        on((5, 4), 5, 24, 6),
        on((5, 4), 65535, 0, 6),
        on((256, 255), 256, 65535, 6),
    ]
}

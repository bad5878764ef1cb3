//! Row and its sister.

use crate::row::{row, row_number};

#[test]
fn row_gives_the_stations_entries() {
    let (stations, slots) = (3, 4);
    let mut table: Vec<u64> = (100..118).collect();
    for station in 0..stations {
        assert_eq!(row_number(stations, slots, station, &table), 0);
        let part = row(stations, slots, station, &mut table);
        let first = 100 + 5 * station as u64;
        let expected: Vec<u64> = (first..first + 5).collect();
        assert_eq!(part, expected);
    }
}

#[test]
fn row_part_is_the_callers_memory() {
    let mut table = vec![0; 6];
    row(2, 2, 1, &mut table)[2] = 8;
    assert_eq!(table, [0, 0, 0, 0, 0, 8]);
}

#[test]
fn row_limits() {
    let mut large = vec![0; 256 * 256];
    assert_eq!(row(256, 255, 255, &mut large).len(), 256);
    let table = &large[..];
    assert_eq!(row_number(256, 255, 255, table), 0);
    assert_eq!(row_number(256, 255, 255, &table[1..]), 8);
    assert_eq!(row_number(256, 255, 0, &table[1..]), 8);
    assert_eq!(row_number(256, 255, 256, &table[1..]), 6);
    assert_eq!(row_number(256, 255, 65535, table), 6);
    assert_eq!(row_number(257, 255, 300, &table[1..]), 1);
    assert_eq!(row_number(256, 256, 300, &table[1..]), 1);
    assert_eq!(row_number(0, 1, 0, table), 1);
    assert_eq!(row_number(1, 0, 0, table), 1);
}

#[test]
fn refused_row_is_empty() {
    let mut table = vec![5; 6];
    assert!(row(0, 2, 0, &mut table).is_empty());
    assert!(row(2, 2, 2, &mut table).is_empty());
    assert!(row(2, 3, 0, &mut table).is_empty());
    assert_eq!(table, [5; 6]);
}

//! Bytes that no station can have written, of each kind, and those next to them that one can.

use super::Case;
use crate::drawing::{Figures, DRAWN_BYTES, FIGURE_LIMIT};
use crate::drawing_bits::share_bits;

pub fn cases() -> Vec<Case> {
    [
        lengths(),
        stations(),
        doubles(),
        high_and_low(),
        byte_order(),
    ]
    .concat()
}

/// A record, which other cases change.
const CARRIED: Figures = Figures {
    station: 12,
    load: 7 << 30,
    pairs: 3,
};

/// The bits of minus zero.
const MINUS_ZERO: u64 = 1 << 63;

/// Lengths other than 18 bytes, of zeros and of records.
fn lengths() -> Vec<Case> {
    let twice = [CARRIED.record(), CARRIED.record()].concat();
    let zeros = [0; 64];
    let mut cases = Vec::new();
    for length in [0, 1, 2, 8, 10, 16, 17, 19, 20, 26, 34, 35, 36] {
        let label = format!("{length} bytes");
        cases.push(Case::new(&label, &twice[..length]).foreign());
        let label = format!("{length} bytes of 0");
        cases.push(Case::new(&label, &zeros[..length]).foreign());
    }
    cases.push(Case::new("64 bytes of 0", &zeros).foreign());
    let exact = Case::new("18 bytes", &twice[..DRAWN_BYTES]);
    cases.push(exact.reading(12, 7 << 30, 3));
    cases.push(Case::new("18 bytes of 0", &zeros[..DRAWN_BYTES]).reading(0, 0, 0));
    let behind = Case::new("18 bytes from the second on", &twice[1..=DRAWN_BYTES]);
    cases.push(behind.foreign());
    cases
}

/// Stations from 256 on, idle and not.
fn stations() -> Vec<Case> {
    let [low, high] = [CARRIED.load, CARRIED.load + CARRIED.pairs].map(share_bits);
    let mut cases = Vec::new();
    for station in [256, 257, 511, 512, 3072, 32768, 65280, 65535] {
        let label = format!("station {station} of a record");
        cases.push(Case::of_bits(&label, station, low, high).foreign());
        let label = format!("station {station} of an idle one");
        cases.push(Case::of_bits(&label, station, 0, 0).foreign());
    }
    cases
}

/// Doubles that are no load, as the low, as the high and as both.
fn doubles() -> Vec<Case> {
    let doubles = [
        ("minus zero", MINUS_ZERO),
        ("minus 1", 0xBFF0 << 48),
        ("minus 2^-32", 0xBDF0 << 48),
        ("infinity", 0x7FF0 << 48),
        ("minus infinity", 0xFFF0 << 48),
        ("a quiet nan", 0x7FF8 << 48),
        ("a signalling nan", 0x7FF0_0000_0000_0001),
        ("a nan of all bits", u64::MAX),
        ("the least subnormal", 1),
        ("the largest subnormal", 0x000F_FFFF_FFFF_FFFF),
        ("a minus subnormal", MINUS_ZERO + 1),
        ("the least normal", 0x0010 << 48),
        ("the largest double", 0x7FEF_FFFF_FFFF_FFFF),
        ("2^-33", 0x3DE0 << 48),
        ("2^-32 and a bit", 0x3DF0_0000_0000_0001),
        ("2^-31 and 2^-33", 0x3E04 << 48),
        ("1 and 2^-33", 0x3FF0_0000_0008_0000),
        ("1 and the last bit", 0x3FF0_0000_0000_0001),
        ("below 1 by the last bit", 0x3FEF_FFFF_FFFF_FFFF),
        ("2^17 less 2^-33", 0x40FF_FFFF_FFFF_FFF8),
        ("2^17 less the last bit", 0x40FF_FFFF_FFFF_FFFF),
        ("2^18", 0x4110 << 48),
        ("2^32", 0x41F0 << 48),
    ];
    let (low, high) = (share_bits(1), share_bits(FIGURE_LIMIT));
    let mut cases = Vec::new();
    for (name, bits) in doubles {
        for (place, station, low, high) in [
            ("low", 1, bits, high),
            ("low beside 0", 2, bits, 0),
            ("high", 3, low, bits),
            ("high beside 0", 4, 0, bits),
            ("both", 5, bits, bits),
        ] {
            let label = format!("{name}, {place}");
            cases.push(Case::of_bits(&label, station, low, high).foreign());
        }
    }
    cases
}

/// A high below its low, one equal to it, and the next ones above it.
fn high_and_low() -> Vec<Case> {
    let mut cases = Vec::new();
    for load in [1, 2, 3, 1 << 32, 5 << 40, FIGURE_LIMIT - 1] {
        let of = |label: &str, high: u64| {
            let label = format!("{label}, load {load}");
            Case::of_bits(&label, 8, share_bits(load), high)
        };
        cases.push(of("a high of 0", 0).foreign());
        cases.push(of("a high equal to the low", share_bits(load)).foreign());
        cases.push(of("a high 1 below the low", share_bits(load - 1)).foreign());
        cases.push(of("a high 1 above the low", share_bits(load + 1)).reading(8, load, 1));
        let bits = share_bits(load) + 1;
        cases.push(of("a high above by the last bit", bits).foreign());
    }
    cases.push(Case::of_bits("both 0", 8, 0, 0).reading(8, 0, 0));
    cases
}

/// Records with low bytes first: of the station, of the doubles and of all; and with the doubles exchanged.
fn byte_order() -> Vec<Case> {
    let turned = |label: &str, parts: &[(usize, usize)]| {
        let mut record = CARRIED.record();
        for (from, to) in parts {
            record[*from..*to].reverse();
        }
        Case::new(label, &record)
    };
    let mut exchanged = CARRIED.record();
    exchanged[2..].rotate_left(8);
    vec![
        turned("low byte first, the station", &[(0, 2)]).foreign(),
        turned("low byte first, the low", &[(2, 10)]).foreign(),
        turned("low byte first, the high", &[(10, 18)]).foreign(),
        turned("low byte first, both doubles", &[(2, 10), (10, 18)]).foreign(),
        turned("low byte first, all three", &[(0, 2), (2, 10), (10, 18)]).foreign(),
        turned("all bytes turned round", &[(0, 18)]).foreign(),
        Case::new("low and high exchanged", &exchanged).foreign(),
        turned("high byte first", &[]).reading(12, 7 << 30, 3),
    ]
}

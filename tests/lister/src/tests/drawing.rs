//! Records for the drawing program: by hand, f64 against whole numbers, and what is read back of each kind of bytes.

use crate::drawing::{Figures, DRAWN_BYTES, FIGURE_LIMIT};
use crate::drawing_bits::{read, record, share_bits, share_of};
use crate::drawing_samples::{
    around_limits, drawn_bytes, drawn_figures, every_exponent, record_of_bits, records_with, EDGES,
};
use crate::random::Random;

fn figures(station: u16, load: u64, pairs: u64) -> Figures {
    Figures {
        station,
        load,
        pairs,
    }
}

/// Records by their bytes: nothing, the least share, wholes, and a third.
#[test]
fn records_by_hand() {
    for (figures, station, low, high) in [
        (figures(0, 0, 0), [0, 0], 0, 0),
        (figures(255, 0, 0), [0, 255], 0, 0),
        (figures(1, 0, 1), [0, 1], 0, 0x3DF0_0000_0000_0000),
        (figures(2, 1, 1), [0, 2], 0x3DF0 << 48, 0x3E00 << 48),
        (figures(2, 2, 1), [0, 2], 0x3E00 << 48, 0x3E08 << 48),
        (
            figures(3, 4 << 32, 4),
            [0, 3],
            0x4010_0000_0000_0000,
            0x4010_0000_0010_0000,
        ),
        (
            figures(77, 1_431_655_765, 1),
            [0, 77],
            0x3FD5_5555_5540_0000,
            0x3FD5_5555_5580_0000,
        ),
        (
            figures(9, FIGURE_LIMIT - 1, FIGURE_LIMIT - 1),
            [0, 9],
            0x40FF_FFFF_FFFF_FFF0,
            0x410F_FFFF_FFFF_FFF0,
        ),
    ] {
        let bytes = [
            &station[..],
            &u64::to_be_bytes(low),
            &u64::to_be_bytes(high),
        ]
        .concat();
        assert_eq!(figures.record().to_vec(), bytes, "{figures:?}");
        assert_eq!(record(figures).to_vec(), bytes, "{figures:?}");
        assert_eq!(Figures::read(&bytes), Some(figures));
        assert_eq!(read(&bytes), Some(figures));
    }
}

/// No rounding: a number below 2^53 and its double times 2^32 are the same, by f64 and by the bits.
#[test]
fn shares_are_exact() {
    let mut random = Random::new(24);
    let drawn: Vec<u64> = (0..1_000_000)
        .map(|_| random.number() >> random.between(11, 63))
        .collect();
    let around = (0..53).flat_map(|place| [(1 << place) - 1, 1 << place, (1 << place) + 1]);
    for number in around.chain(drawn) {
        let double = number as f64 / 4_294_967_296.0;
        assert_eq!(double.to_bits(), share_bits(number), "{number}");
        assert_eq!((double * 4_294_967_296.0) as u64, number);
        let small = (number < 2 * FIGURE_LIMIT).then_some(number);
        assert_eq!(share_of(share_bits(number)), small, "{number}");
    }
}

/// What both ways read of some bytes. What is read is possible, and is what writes the bytes.
fn assert_read(bytes: &[u8]) -> Option<Figures> {
    let found = Figures::read(bytes);
    assert_eq!(found, read(bytes), "{bytes:02x?}");
    if let Some(figures) = found {
        let Figures {
            station,
            load,
            pairs,
        } = figures;
        assert!(station < 256 && load < 1 << 49 && pairs < 1 << 49);
        assert!(pairs > 0 || load == 0, "{figures:?}");
        assert_eq!(figures.record().as_slice(), bytes, "{figures:?}");
    }
    found
}

/// The record of possible figures is read back, and both ways write it alike.
fn assert_written(figures: Figures) {
    let bytes = figures.record();
    assert_eq!(bytes, record(figures), "{figures:?}");
    assert_eq!(assert_read(&bytes), Some(figures));
}

#[test]
fn possible_figures_are_read_back() {
    for load in EDGES {
        for pairs in EDGES {
            let figures = figures(pairs as u16 % 256, load, pairs);
            assert_eq!(figures.are_possible(), pairs > 0 || load == 0);
            if figures.are_possible() {
                assert_written(figures);
            }
        }
    }
    let mut random = Random::new(25);
    for _ in 0..1_000_000 {
        assert_written(drawn_figures(&mut random));
    }
    for station in 0..256 {
        assert_written(figures(station, 5, 7));
        assert_written(figures(station, 0, 0));
    }
}

/// Figures that no station has are no record's, whatever their bits.
#[test]
fn other_figures_are_foreign() {
    let most = FIGURE_LIMIT - 1;
    for (station, load, pairs) in [
        (256, 1, 1),
        (65535, 0, 0),
        (0, FIGURE_LIMIT, 1),
        (0, 1, FIGURE_LIMIT),
        (0, most, FIGURE_LIMIT),
        (0, FIGURE_LIMIT, most),
        (0, 2 * FIGURE_LIMIT, 1),
        (3, 1, 0),
        (3, most, 0),
    ] {
        assert!(!figures(station, load, pairs).are_possible());
        let [low, high] = [load, load + pairs].map(share_bits);
        let bytes = record_of_bits(station, low, high);
        assert_eq!(assert_read(&bytes), None, "{station} {load} {pairs}");
    }
}

/// Every exponent with fractions of every kind and both signs, and every bit around the limits: as the low and as the high.
#[test]
fn every_exponent_is_read_alike() {
    let mut counts = [0; 2];
    for bits in every_exponent().chain(around_limits()) {
        for record in records_with(bits) {
            counts[usize::from(assert_read(&record).is_some())] += 1;
        }
    }
    let [foreign, known] = counts;
    assert!(foreign > 2_000_000 && known > 2_000, "{counts:?}");
}

/// Numbers with these bits are read exactly from 2^-32 on to below 2^18, from the bit of 2^-32 on, and without a sign.
#[test]
fn known_doubles_lie_between_the_limits() {
    for bits in every_exponent().chain(around_limits()) {
        let double = f64::from_bits(bits);
        let inside = (1.0 / 4_294_967_296.0..262_144.0).contains(&double);
        let least = double.to_bits() == 0 || inside;
        let is_whole = least && bits % (1 << finer(bits)) == 0;
        assert_eq!(share_of(bits).is_some(), is_whole, "{bits:x}");
    }
}

/// How many of the last bits of a double from 2^-32 to below 2^18 are finer than 2^-32.
fn finer(bits: u64) -> u64 {
    let place = (bits >> 52).saturating_sub(991);
    52 - place.min(52)
}

#[test]
fn drawn_bytes_are_read_alike() {
    let mut random = Random::new(26);
    let mut counts = [0; 2];
    for _ in 0..2_000_000 {
        let bytes = drawn_bytes(&mut random);
        let found = assert_read(&bytes);
        assert!(found.is_none() || bytes.len() == DRAWN_BYTES);
        counts[usize::from(found.is_some())] += 1;
    }
    assert!(counts.iter().all(|count| *count > 500_000), "{counts:?}");
    for _ in 0..1_000_000 {
        let [low, high] = [0; 2].map(|_| random.number());
        assert_eq!(assert_read(&record_of_bits(5, low, high)), None);
    }
}

/// One bit of a record changed: of the station's high byte and of a sign it is foreign.
#[test]
fn one_bit_changed() {
    let mut random = Random::new(27);
    let mut counts = [0; 2];
    for _ in 0..5_000 {
        let figures = drawn_figures(&mut random);
        for bit in 0..8 * DRAWN_BYTES {
            let mut record = figures.record();
            record[bit / 8] ^= 128 >> (bit % 8);
            let found = assert_read(&record);
            assert_ne!(found, Some(figures));
            counts[usize::from(found.is_some())] += 1;
            if bit < 8 || [16, 80].contains(&bit) {
                assert_eq!(found, None, "{figures:?} {bit}");
            }
            if (8..16).contains(&bit) {
                assert!(found.is_some(), "{figures:?} {bit}");
            }
        }
    }
    assert!(counts.iter().all(|count| *count > 50_000), "{counts:?}");
}

#[test]
fn other_lengths_are_foreign() {
    let record = figures(4, 5, 6).record();
    let long = [record, record].concat();
    for length in (0..=long.len()).filter(|length| *length != DRAWN_BYTES) {
        assert_eq!(assert_read(&long[..length]), None);
        assert_eq!(assert_read(&vec![0; length]), None);
    }
}

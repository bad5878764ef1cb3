//! Records near those that a station can have, and the bits of doubles around the limits.

use crate::drawing::{Figures, DRAWN_BYTES, FIGURE_LIMIT};
use crate::drawing_bits::{bits_of, share_bits, FRACTION_BITS, ONE_EXPONENT};
use crate::random::Random;

/// Loads and pairs at which something changes.
pub const EDGES: [u64; 14] = [
    0,
    1,
    2,
    3,
    (1 << 32) - 1,
    1 << 32,
    (1 << 32) + 1,
    3 << 31,
    1 << 47,
    (1 << 48) - 1,
    1 << 48,
    FIGURE_LIMIT - 2,
    FIGURE_LIMIT - 1,
    FIGURE_LIMIT / 3,
];

/// A record of any bits.
pub fn record_of_bits(station: u16, low: u64, high: u64) -> [u8; DRAWN_BYTES] {
    let mut record = [0; DRAWN_BYTES];
    record[..2].copy_from_slice(&station.to_be_bytes());
    record[2..10].copy_from_slice(&low.to_be_bytes());
    record[10..].copy_from_slice(&high.to_be_bytes());
    record
}

/// Fractions of every kind: none, one bit, the leading bits, the last bits, and mixed ones.
fn fractions() -> Vec<u64> {
    let one = 1 << FRACTION_BITS;
    let places = [0, 1, 2, 3, 4, 18, 19, 20, 31, 32, 33, 50, 51];
    let mut fractions = vec![0, one - 1, one / 3, one / 3 * 2, 0xA_5C30_F691_E2DB];
    fractions.extend(places.map(|place| 1 << place));
    fractions.extend(places.map(|place| one - (1 << place)));
    fractions.extend(places.map(|place| (1 << place) - 1));
    fractions.sort_unstable();
    fractions.dedup();
    fractions
}

/// The bits with every exponent, every kind of fraction and both signs.
pub fn every_exponent() -> impl Iterator<Item = u64> {
    (0..2048).flat_map(|exponent| {
        let signed = move |fraction| [0, 1].map(|sign| bits_of(sign, exponent, fraction));
        fractions().into_iter().flat_map(signed)
    })
}

/// The exponents around that of 2^-32, and around those of 2^17 and 2^18.
pub fn limit_exponents() -> impl Iterator<Item = u64> {
    (ONE_EXPONENT - 2..=ONE_EXPONENT + 2).chain(1023 + 15..=1023 + 19)
}

/// The bits around these limits with fractions of one bit, of all bits from one on, and of all bits before one.
pub fn around_limits() -> impl Iterator<Item = u64> {
    limit_exponents().flat_map(|exponent| {
        (0..=FRACTION_BITS).flat_map(move |place| {
            let (one, last) = (1 << FRACTION_BITS, (1 << place) - 1);
            let fractions = [(1 << place) % one, last, one - 1 - last];
            fractions.map(|fraction| bits_of(0, exponent, fraction))
        })
    })
}

/// Records with the bits as the low and as the high, beside the bits of small and large numbers and themselves.
pub fn records_with(bits: u64) -> impl Iterator<Item = [u8; DRAWN_BYTES]> {
    let others = [0, 1, 1 << 32, FIGURE_LIMIT - 1, 2 * FIGURE_LIMIT - 2].map(share_bits);
    let near = [bits.wrapping_sub(1), bits, bits.wrapping_add(1)];
    let others = others.into_iter().chain(near);
    others.flat_map(move |other| {
        let both = [(bits, other), (other, bits)];
        both.map(|(low, high)| record_of_bits(77, low, high))
    })
}

/// A load or a number of pairs: an edge, or of any number of bits.
fn drawn_number(random: &mut Random) -> u64 {
    match random.below(4) {
        0 => EDGES[random.below(EDGES.len())],
        _ => random.number() >> random.between(15, 63),
    }
}

/// Figures that a station can have.
pub fn drawn_figures(random: &mut Random) -> Figures {
    let pairs = match random.below(8) {
        0 => 0,
        _ => drawn_number(random),
    };
    let load = drawn_number(random);
    Figures {
        station: random.below(256) as u16,
        load: if pairs == 0 { 0 } else { load },
        pairs,
    }
}

/// Bits with an exponent near those of loads, and a fraction that mostly ends in zeros.
fn drawn_bits(random: &mut Random) -> u64 {
    let exponent = random.between(ONE_EXPONENT as usize - 3, 1023 + 20) as u64;
    let zeros = random.below(FRACTION_BITS as usize + 1);
    let fraction = (random.number() % (1 << FRACTION_BITS)) >> zeros << zeros;
    bits_of(u64::from(random.below(16) == 0), exponent, fraction)
}

/// Bytes that a station can have written, or nearly; some are any bytes.
pub fn drawn_bytes(random: &mut Random) -> Vec<u8> {
    let figures = drawn_figures(random);
    let mut record = figures.record();
    match random.below(12) {
        0..=2 => {}
        3..=5 => record[random.below(DRAWN_BYTES)] ^= 1 << random.below(8),
        6 => record[random.below(DRAWN_BYTES)] = random.number() as u8,
        7 => record[10..].copy_from_slice(&drawn_figures(random).record()[10..]),
        8 => record[2..].rotate_left(8),
        9 => {
            let mut bits = [0; 2].map(|_| drawn_bits(random));
            if random.below(4) > 0 {
                bits.sort_unstable();
            }
            record = record_of_bits(figures.station, bits[0], bits[1]);
        }
        10 => {
            let [low, high] = [0; 2].map(|_| random.number());
            record = record_of_bits(figures.station, low, high);
        }
        _ => {
            let length = random.below(2 * DRAWN_BYTES + 2);
            return record.iter().copied().cycle().take(length).collect();
        }
    }
    record.to_vec()
}

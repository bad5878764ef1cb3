//! Loads and pairs around 2^49, and doubles around 2^-32, 2^17 and 2^18.

use super::Case;
use crate::drawing::FIGURE_LIMIT;
use crate::drawing_bits::{bits_of, share_bits, FRACTION_BITS};
use crate::drawing_samples::limit_exponents;

pub fn cases() -> Vec<Case> {
    [figures(), exponents()].concat()
}

/// Loads and pairs up to 2^49 − 1, and from there on.
fn figures() -> Vec<Case> {
    let most = FIGURE_LIMIT - 1;
    let numbers = [
        0,
        1,
        most / 2,
        most - 1,
        most,
        FIGURE_LIMIT,
        FIGURE_LIMIT + 1,
    ];
    let mut cases = Vec::new();
    for load in numbers {
        for pairs in numbers {
            let label = format!("limits, load {load}, pairs {pairs}");
            let case = Case::of_bits(&label, 255, share_bits(load), share_bits(load + pairs));
            let fits = load <= most && pairs <= most && (pairs > 0 || load == 0);
            cases.push(match fits {
                true => case.reading(255, load, pairs),
                false => case.foreign(),
            });
        }
    }
    cases
}

/// Exponents around the limits with several fractions, as the low and as the high.
fn exponents() -> Vec<Case> {
    let one = 1 << FRACTION_BITS;
    let fractions = [
        0,
        1,
        one / 2,
        one / 4,
        one - 1,
        one - 4,
        one - 8,
        one - 16,
        8,
        one / 2 + one / 4,
    ];
    let mut cases = Vec::new();
    for exponent in limit_exponents() {
        for fraction in fractions {
            let bits = bits_of(0, exponent, fraction);
            let label = format!("exponent {exponent}, fraction {fraction:x}");
            let low = format!("{label}, low");
            cases.push(Case::of_bits(&low, 31, bits, share_bits(3 << 48)));
            let high = format!("{label}, high");
            cases.push(Case::of_bits(&high, 32, 0, bits));
            let high = format!("{label}, high beside 2^16");
            cases.push(Case::of_bits(&high, 33, share_bits(1 << 48), bits));
        }
    }
    cases
}

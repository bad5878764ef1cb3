//! The share of a pair, in 64-bit words.

/// The whole part of 2^32 × through ÷ count, by doubling through 32 times.
fn long_share(through: u64, count: u64) -> u64 {
    let mut whole = 0;
    let mut rest = through;
    for _ in 0..32 {
        whole *= 2;
        if rest < count - rest {
            rest *= 2;
        } else {
            whole += 1;
            rest -= count - rest;
        }
    }
    whole
}

/// The whole part of 2^32 × through ÷ count, with through at most count.
pub fn share(through: u64, count: u64) -> u64 {
    if through == count {
        1 << 32
    } else if count < 1 << 32 {
        (through << 32) / count
    } else {
        long_share(through, count)
    }
}

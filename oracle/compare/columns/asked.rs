//! Codes, indices and lengths to ask for.

use crate::random::{Random, EXTREMES};

/// Every code, and some that name nothing.
pub fn codes(count: usize, random: &mut Random) -> Vec<u64> {
    let count = count as u64;
    (0..count + 2).chain([random.pick(&EXTREMES)]).collect()
}

/// Every index below `end`, or `most` of them at random, and some from `end` on.
pub fn indices(end: u64, most: u64, random: &mut Random) -> Vec<u64> {
    let mut all: Vec<u64> =
        if end <= most { (0..end).collect() } else { (0..most).map(|_| random.below(end)).collect() };
    all.extend([end, end + 1, random.pick(&EXTREMES)]);
    all
}

/// A length other than the one that is needed.
pub fn other_length(need: usize, random: &mut Random) -> usize {
    match random.below(4) {
        0 => need.saturating_sub(1),
        1 => random.below(need as u64 + 1) as usize,
        2 => 0,
        _ => need + 1 + random.below(5) as usize,
    }
}

//! Networks with the floats that matter to the program, and the vectors that go with them.

use crate::random::Random;
use crate::records::Network;
use plain::{Counts, RECORD};
use std::f64::consts::PI;

/// Floats of a bus, a branch, a generator and a segment.
const FLOATS: [usize; 4] = [6, 14, 7, 2];

/// Where a branch has its tap, the cosine and sine of its shift, its angle bounds and their tangents.
const TAP: usize = 6;
const COSINE: usize = 7;
const SINE: usize = 8;
const ANGMIN: usize = 9;
const ANGMAX: usize = 10;
const TANGENTS: [usize; 2] = [11, 12];

fn put(network: &mut Network, record: usize, float: usize, x: f64) {
    let at = RECORD * record + 16 + 8 * float;
    network.bytes[at..at + 8].copy_from_slice(&x.to_bits().to_le_bytes());
}

/// Every float anew.
fn fill(network: &mut Network, mut float: impl FnMut() -> f64) {
    let Counts { n, m, k, s } = network.counts;
    let mut record = 0;
    for (count, floats) in [n, m, k, s].into_iter().zip(FLOATS) {
        for _ in 0..count {
            (0..floats).for_each(|i| put(network, record, i, float()));
            record += 1;
        }
    }
}

/// A small whole number, or a zero of either sign.
fn whole(random: &mut Random) -> f64 {
    random.pick(&[0.0, -0.0, 1.0, -1.0, 2.0, -2.0, 0.5, 3.0])
}

/// π, its neighbours, and what lies far from it.
fn about_pi(random: &mut Random) -> f64 {
    random.pick(&[PI, PI.next_up(), PI.next_down(), PI, 4.0, f64::INFINITY, f64::NAN, 1.0, 0.0, -PI])
}

/// The angle bounds of a branch at and just beyond ±π, and tangents that vanish.
fn angles(network: &mut Network, branch: usize, random: &mut Random) {
    if random.once_in(2) {
        let (low, high) = (about_pi(random), about_pi(random));
        put(network, branch, ANGMIN, -low);
        put(network, branch, ANGMAX, high);
    }
    for tangent in TANGENTS {
        if random.once_in(3) {
            let x = random.pick(&[0.0, -0.0, 1.0, f64::NAN]);
            put(network, branch, tangent, x);
        }
    }
}

/// Taps that divide by zero, and shifts whose cosine or sine vanishes.
fn tap(network: &mut Network, branch: usize, random: &mut Random) {
    if random.once_in(3) {
        let x = random.pick(&[0.0, -0.0, 1.0, 1.0, 2.0, -1.0, 5e-324, f64::INFINITY, f64::NAN]);
        put(network, branch, TAP, x);
    }
    if random.once_in(3) {
        let (cosine, sine) = random.pick(&[(1.0, 0.0), (0.0, 1.0), (-1.0, -0.0), (0.0, 0.0)]);
        put(network, branch, COSINE, cosine);
        put(network, branch, SINE, sine);
    }
}

/// Other angle and capability flags, which leave the numbering as it is.
fn flags(network: &mut Network, random: &mut Random) {
    let Counts { n, m, k, .. } = network.counts;
    for record in n..n + m + k {
        let flag = if record < n + m { 2 } else { 1 };
        network.bytes[RECORD * record as usize + 1] ^= flag * random.below(2) as u8;
    }
}

/// Spreads the floats that matter over a network: some networks have plain floats, some small whole
/// numbers whose sums vanish, some hardly anything but zeros; the rest keep theirs.
pub fn special(network: &mut Network, random: &mut Random) {
    match random.below(7) {
        0 => fill(network, || random.plain()),
        1 | 2 => fill(network, || whole(random)),
        3 => fill(network, || random.pick(&[0.0, -0.0, 0.0, -0.0, 1.0])),
        _ => {}
    }
    if random.once_in(2) {
        flags(network, random);
    }
    if random.once_in(5) {
        return;
    }
    let first = network.counts.n as usize;
    for branch in first..first + network.counts.m as usize {
        tap(network, branch, random);
        angles(network, branch, random);
    }
}

/// A vector of so many floats.
pub fn vector(random: &mut Random, length: usize) -> Vec<f64> {
    if random.once_in(3) {
        return (0..length).map(|_| whole(random)).collect();
    }
    random.floats(length)
}

/// A length that is not the given one.
pub fn other_length(random: &mut Random, length: usize) -> usize {
    match random.below(4) {
        0 => length + 1,
        1 if length > 0 => length - 1,
        2 if length > 0 => 0,
        _ => length + 1 + random.below(40) as usize,
    }
}

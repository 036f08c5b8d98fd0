//! The networks on which records and numbering are compared.

use super::damage;
use super::network::{Branch, Generator, Network, Shape};
use super::numbering::Numbering;
use super::shapes;
use crate::random::Random;
use plain::Counts;

const RANDOM: u64 = 22_000;
const DAMAGED: u64 = 40_000;
/// No bound on the names asked of a network.
const ALL: usize = usize::MAX;

/// Document 01's network Q, with a piecewise generator of three segments behind it in `more`.
fn example(more: bool) -> Shape {
    let mut shape = Shape { buses: 2, ..Shape::default() };
    shape.branches.push(Branch { from: 0, to: 1, flags: 1 });
    shape.generators.push(Generator { bus: 0, flags: 0, segments: 0 });
    if more {
        shape.branches.push(Branch { from: 1, to: 0, flags: 2 });
        shape.generators.push(Generator { bus: 1, flags: 2, segments: 3 });
    }
    shape
}

/// Every length of the slice up to some records more.
fn every_length(numbering: &mut Numbering, random: &mut Random) {
    let whole = Network::of(&example(true), random);
    for length in 0..whole.bytes.len() + 300 {
        let mut bytes = whole.bytes.clone();
        bytes.resize(length, 0);
        numbering.compare_check(&Network { counts: whole.counts, bytes });
    }
}

/// Every byte of the records with every value.
fn every_byte(numbering: &mut Numbering, random: &mut Random) {
    let mut spoilt = Network::of(&example(true), random);
    for at in 0..spoilt.bytes.len() {
        let kept = spoilt.bytes[at];
        for value in 0..=255 {
            spoilt.bytes[at] = value;
            numbering.compare_check(&spoilt);
        }
        spoilt.bytes[at] = kept;
    }
}

/// Counts at, just past and far past the limits, with no bytes and with the bytes of a small network.
fn every_count(numbering: &mut Numbering, random: &mut Random) {
    let small = Network::of(&example(false), random);
    let values = |limit: u64| [0, 1, limit - 1, limit, limit + 1, 1 << 32, 1 << 57, 1 << 63, u64::MAX];
    let [n, m, k, s] = plain::check::LIMITS.map(values);
    for choice in 0..9usize.pow(4) {
        let at = |place: u32| choice / 9usize.pow(place) % 9;
        let counts = Counts { n: n[at(0)], m: m[at(1)], k: k[at(2)], s: s[at(3)] };
        numbering.compare_check(&Network { counts, bytes: vec![] });
        numbering.compare_check(&Network { counts, bytes: small.bytes.clone() });
    }
}

/// The largest counts: all branches limited, none, and some.
fn largest(numbering: &mut Numbering, random: &mut Random) {
    let limited: [fn(u64) -> bool; 3] = [|_| true, |_| false, |e| e % 3 != 1];
    for rule in limited {
        let network = Network::of(&shapes::largest(random, rule), random);
        numbering.compare(&network, 40, random);
        let mut last = network.clone();
        *last.bytes.last_mut().expect("bytes") = 1;
        numbering.compare_check(&last);
    }
    let mut one = Shape { buses: 1, ..Shape::default() };
    one.generators = [0, 65535, 1].map(|segments| Generator { bus: 0, flags: 2, segments }).to_vec();
    numbering.compare(&Network::of(&one, random), 100, random);
    let buses = Shape { buses: 4096, ..Shape::default() };
    numbering.compare(&Network::of(&buses, random), 200, random);
}

/// All of it; whether nothing differs.
pub fn compare() -> bool {
    let random = &mut Random::new(1);
    let mut numbering = Numbering::new();
    for shape in shapes::small() {
        let network = Network::of(&shape, random);
        numbering.compare(&network, ALL, random);
    }
    for _ in 0..RANDOM {
        let network = Network::of(&shapes::any(random), random);
        numbering.compare(&network, ALL, random);
    }
    for _ in 0..DAMAGED {
        let mut network = Network::of(&shapes::any(random), random);
        damage::spoil(&mut network, random);
        numbering.compare(&network, ALL, random);
    }
    every_length(&mut numbering, random);
    every_byte(&mut numbering, random);
    every_count(&mut numbering, random);
    largest(&mut numbering, random);
    numbering.done()
}

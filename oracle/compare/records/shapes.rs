//! Shapes of networks: every small one, random ones, and the largest.

use super::network::{Branch, Generator, Shape};
use crate::random::Random;

/// Every list of at most `most` of the choices.
fn lists<T: Copy>(choices: &[T], most: usize) -> Vec<Vec<T>> {
    let mut all = vec![vec![]];
    let mut last = all.clone();
    for _ in 0..most {
        last = last.iter().flat_map(|l: &Vec<T>| choices.iter().map(move |&c| [&l[..], &[c]].concat())).collect();
        all.extend(last.clone());
    }
    all
}

/// All shapes of up to three buses, two branches (each pair of ends, limited or not) and two
/// generators (each bus, plain or with 0 to 2 segments).
pub fn small() -> Vec<Shape> {
    let mut all = Vec::new();
    for buses in 0..=3u32 {
        let ends = (0..buses).flat_map(|f| (0..buses).map(move |t| (f, t))).filter(|(f, t)| f != t);
        let branches: Vec<Branch> =
            ends.flat_map(|(from, to)| (0..2).map(move |flags| Branch { from, to, flags })).collect();
        let costs = [(0, 0), (2, 0), (2, 1), (3, 2)];
        let generators: Vec<Generator> =
            (0..buses).flat_map(|bus| costs.map(|(flags, segments)| Generator { bus, flags, segments })).collect();
        for branches in lists(&branches, 2) {
            for generators in lists(&generators, 2) {
                all.push(Shape { buses, branches: branches.clone(), generators });
            }
        }
    }
    all
}

/// The most buses, branches, generators and segments of each in a random shape.
fn bounds(random: &mut Random) -> [u64; 4] {
    match random.below(40) {
        0 => [0, 0, 0, 0],
        1 | 2 => [1, 0, 1, 1],
        3 | 4 => [2, 1, 1, 2],
        5 | 6 => [2, 4, 2, 5],
        7 => [40, 60, 30, 5],
        8 => [3, 0, 6, 5],
        9 => [9, 20, 0, 0],
        _ => [7, 9, 6, 5],
    }
}

fn branch(random: &mut Random, buses: u64, earlier: &[Branch], flags: u64) -> Branch {
    let flags = if flags < 4 { flags } else { random.below(4) } as u8;
    if let (Some(&last), true) = (earlier.last(), random.once_in(4)) {
        // Parallel to the last one, often the other way round.
        let swap = random.once_in(2);
        return Branch {
            from: if swap { last.to } else { last.from },
            to: if swap { last.from } else { last.to },
            flags,
        };
    }
    let from = random.below(buses);
    let to = (from + 1 + random.below(buses - 1)) % buses;
    Branch { from: from as u32, to: to as u32, flags }
}

/// A random shape whose network passes the record check.
pub fn any(random: &mut Random) -> Shape {
    let [n, m, k, segments] = bounds(random);
    let buses = random.below(n + 1);
    // Flags of one network are often all alike.
    let (branch_flags, generator_flags) = (random.below(8), random.below(8));
    let mut shape = Shape { buses: buses as u32, ..Shape::default() };
    for _ in 0..if buses < 2 { 0 } else { random.below(m + 1) } {
        let next = branch(random, buses, &shape.branches, branch_flags);
        shape.branches.push(next);
    }
    for _ in 0..if buses < 1 { 0 } else { random.below(k + 1) } {
        let flags = if generator_flags < 4 { generator_flags } else { random.below(4) } as u8;
        let bus = random.below(buses) as u32;
        shape.generators.push(Generator { bus, flags, segments: random.below(segments + 1) as u16 });
    }
    shape
}

/// The largest counts, with the branches limited by `limited`.
pub fn largest(random: &mut Random, limited: impl Fn(u64) -> bool) -> Shape {
    let mut shape = Shape { buses: 4096, ..Shape::default() };
    for e in 0..8192 {
        let next = branch(random, 4096, &shape.branches, limited(e) as u64 + 2 * (e % 2));
        shape.branches.push(next);
    }
    let mut rest = 65536u64;
    for g in 0..4096u64 {
        let segments = if g == 4095 { rest } else { random.below(33).min(rest) };
        rest -= segments;
        let flags = if segments > 0 || random.once_in(2) { 2 } else { 0 } + (g % 2) as u8;
        shape.generators.push(Generator { bus: random.below(4096) as u32, flags, segments: segments as u16 });
    }
    shape
}

//! Kept answers of records and numbering: networks, good and damaged, each with some questions.

use super::damage;
use super::expect::{COLUMN_BLOCKS, ROW_BLOCKS};
use super::network::{Branch, Generator, Network, Shape};
use super::numbering::past;
use super::shapes;
use super::wanted::Wanted;
use crate::keep::{Counts, Words};
use crate::lent::Element;
use crate::outcome::answer;
use crate::random::Random;

const CHECK: u64 = 0;
const SIZES: u64 = 1;
const COLUMN_NUMBER: u64 = 2;
const ROW_NUMBER: u64 = 3;
const COLUMN_NAME: u64 = 4;
const ROW_NAME: u64 = 5;
const CONES: u64 = 6;

/// The most records of a kept network, and the most cones that are lent.
const RECORDS: u64 = 16;
const CONES_LENT: usize = 32;

/// The entry, its arguments, what it answers.
type Question = (u64, [u64; 3], [u64; 8]);

fn of_answer(a: socwr::Answer) -> [u64; 8] {
    [a.number, a.value, 0, 0, 0, 0, 0, 0]
}

fn of_name(n: socwr::Name) -> [u64; 8] {
    [n.number, n.value, n.block, n.index, n.place, 0, 0, 0]
}

fn of_sizes(s: socwr::Sizes) -> [u64; 8] {
    [s.number, s.value, s.n_eq, s.n_ineq, s.nvar, s.ncon, s.t, s.cost_columns]
}

fn column(w: &Wanted, block: u64, index: u64) -> Question {
    (COLUMN_NUMBER, [block, index, 0], of_answer(w.column_number(block, index)))
}

fn row(w: &Wanted, block: u64, index: u64, place: u64) -> Question {
    (ROW_NUMBER, [block, index, place], of_answer(w.row_number(block, index, place)))
}

fn name(w: &Wanted, rows: bool, number: u64) -> Question {
    (if rows { ROW_NAME } else { COLUMN_NAME }, [number, 0, 0], of_name(w.name(rows, number)))
}

/// What the cones' place `at` holds after the call, where `lent` are lent.
fn cone(w: &Wanted, lent: usize, at: usize) -> Question {
    let list = w.cones(lent);
    let answer = answer(list.as_ref().map(|list| list.len() as u64).map_err(|&r| r));
    let held = list.ok().and_then(|list| list.get(at).copied()).unwrap_or(u32::mark(0));
    (CONES, [lent as u64, at as u64, 0], [answer.number, answer.value, held as u64, 0, 0, 0, 0, 0])
}

/// Some questions on the network.
fn questions(network: &Network, w: &Wanted, random: &mut Random) -> Vec<Question> {
    let mut list = vec![(CHECK, [0; 3], of_answer(w.check())), (SIZES, [0; 3], of_sizes(w.sizes()))];
    let need = w.cones(usize::MAX).map_or(3, |cones| cones.len());
    for lent in [need, need - 1, need + 1] {
        list.push(cone(w, lent, random.below(lent as u64) as usize));
    }
    list.push(cone(w, CONES_LENT, need));
    for rows in [false, true] {
        let names = w.names(rows);
        let end = names.len() as u64;
        list.extend([name(w, rows, end), name(w, rows, random.below(end + 1)), name(w, rows, random.below(end + 1))]);
        let mut asked: Vec<(u64, u64, u64)> = Vec::new();
        for _ in 0..4.min(end) {
            let n = names[random.below(end) as usize];
            asked.push((n.block, n.index, n.place));
        }
        past(network, random.below(if rows { ROW_BLOCKS } else { COLUMN_BLOCKS } + 1), random, &mut asked);
        asked.truncate(7);
        list.extend(asked.iter().map(|&(b, i, p)| if rows { row(w, b, i, p) } else { column(w, b, i) }));
    }
    list
}

/// One network: 1, the counts, the length and the count of questions, the records, the questions.
fn one(words: &mut Words, network: &Network, random: &mut Random) -> u64 {
    let wanted = Wanted::of(network);
    let mut asked = questions(network, &wanted, random);
    if wanted.found.is_err() {
        asked.truncate(9);
    }
    let c = network.counts;
    words.words(&[1, c.n, c.m, c.k, c.s, network.bytes.len() as u64, asked.len() as u64]);
    words.bytes(&network.bytes);
    for (entry, arguments, results) in &asked {
        words.word(*entry);
        words.words(arguments);
        words.words(results);
    }
    asked.len() as u64
}

/// Document 01's networks A to E, and its Q with each kind of record behind it.
fn examples() -> Vec<Shape> {
    let branch = |flags| vec![Branch { from: 0, to: 1, flags }];
    let plain = Generator { bus: 0, flags: 0, segments: 0 };
    let cost = |segments| vec![plain, Generator { bus: 0, flags: 2, segments }];
    vec![
        Shape { buses: 2, branches: branch(1), generators: vec![plain] },
        Shape { buses: 2, branches: branch(0), generators: vec![plain] },
        Shape::default(),
        Shape { buses: 1, branches: vec![], generators: cost(3) },
        Shape { buses: 1, branches: vec![], generators: cost(0) },
    ]
}

/// All of them.
pub fn write(words: &mut Words) -> Counts {
    let random = &mut Random::new(9);
    let mut networks: Vec<Network> = examples().iter().map(|shape| Network::of(shape, random)).collect();
    while networks.len() < 150 {
        let mut network = Network::of(&shapes::any(random), random);
        let small = network.counts.records() <= RECORDS;
        if networks.len() >= 70 {
            damage::spoil(&mut network, random);
        }
        if small && network.bytes.len() <= 128 * RECORDS as usize + 256 {
            networks.push(network);
        }
    }
    let answers = networks.iter().map(|network| one(words, network, random)).sum();
    Counts { cases: networks.len() as u64, answers }
}

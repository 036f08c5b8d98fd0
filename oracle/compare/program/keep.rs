//! Kept answers of program and reading: one call on a network a case.

use super::cases::{other_length, special, vector};
use super::lists::{lengths, Lists};
use super::wanted::Wanted;
use crate::keep::{Counts, Words};
use crate::left::{left, Left};
use crate::on_network::{fits, put, Call};
use crate::random::Random;
use crate::records::{damage, shapes, Network};
use plain::Refused;

const P: u64 = 0;
const Q: u64 = 1;
const A: u64 = 2;
const B: u64 = 3;
const CHECK: u64 = 4;
const PRICES: u64 = 5;
const OBJECTIVE: u64 = 6;

/// The entries, and how many cases of each; one in three is of a damaged network.
const KEPT: [(u64, usize); 7] = [(P, 30), (Q, 20), (A, 75), (B, 45), (CHECK, 15), (PRICES, 25), (OBJECTIVE, 50)];

/// The most records of a kept network.
const RECORDS: usize = 16;

/// A small network, damaged or not.
fn network(random: &mut Random, damaged: bool) -> Network {
    loop {
        let mut network = Network::of(&shapes::any(random), random);
        special(&mut network, random);
        if damaged {
            damage::spoil(&mut network, random);
        }
        if network.bytes.len() <= RECORDS * plain::RECORD {
            return network;
        }
    }
}

/// The lists of an entry, into outputs that are exactly long enough more often than not.
fn written(found: Result<Lists, Refused>, usual: &[usize], random: &mut Random) -> Left {
    let needs = found.as_ref().map_or(usual.to_vec(), Lists::needs);
    let all = lengths(&needs, random);
    let lent = if random.once_in(2) { needs } else { all[random.below(all.len() as u64) as usize].clone() };
    let fitting = found.and_then(|lists| lists.fit(&lent));
    let number_of = |i: usize| if i + 1 < lent.len() { lent[i] } else { 0 };
    let floats = lent[lent.len() - 1];
    let list = |lists: &Lists, i: usize| lists.numbers.get(i).cloned().unwrap_or_default();
    let [starts, rows] = [0, 1].map(|i| fitting.as_ref().map_or(vec![], |lists| list(lists, i)));
    let answer = fitting.as_ref().map_err(|&r| r).map(|lists| {
        let outputs = [&starts[..], &rows[..], &[][..]];
        (lists.floats.len() as u64, outputs, &lists.floats[..])
    });
    left([number_of(0), number_of(1), 0, floats], answer)
}

fn scalar(found: Result<f64, Refused>) -> Left {
    match found {
        Ok(result) => Left { result, ..Left::default() },
        Err(Refused { number, value }) => Left { number, value, ..Left::default() },
    }
}

/// A vector of the length, seldom of another.
fn mostly(random: &mut Random, length: usize) -> Vec<f64> {
    let length = if random.once_in(6) { other_length(random, length) } else { length };
    vector(random, length)
}

/// Whether the sign of the objective's zero is free, so that it is not kept.
fn is_free(call: &Call, left: &Left) -> bool {
    let free = Wanted::of(&call.network).sign_is_free(call.numbers[0]);
    call.entry == OBJECTIVE && left.number == 0 && left.result == 0.0 && free
}

/// One call of the entry.
fn one(entry: u64, damaged: bool, random: &mut Random) -> (Call, Left) {
    let network = network(random, damaged);
    let mut wanted = Wanted::of(&network);
    let (nvar, ncon) = wanted.lengths();
    let x = if matches!(entry, CHECK | OBJECTIVE) { mostly(random, nvar) } else { vec![] };
    let z = if matches!(entry, CHECK | PRICES) { mostly(random, ncon) } else { vec![] };
    let (objective, solver) = match entry {
        OBJECTIVE => (random.pick(&[0, 1, 1, 1, 2, 3, 1 << 32, u64::MAX]), random.float()),
        _ => (0, 0.0),
    };
    let left = match entry {
        P => written(wanted.p(), &[3, 2, 2], random),
        Q => written(wanted.q(), &[3], random),
        A => written(wanted.a(), &[3, 5, 5], random),
        B => written(wanted.b(), &[4], random),
        CHECK => scalar(wanted.reading_check(&x, &z).map(|_| 0.0)),
        PRICES => written(wanted.prices(&z), &[4], random),
        _ => scalar(wanted.objective(objective, &x, solver)),
    };
    (Call { entry, network, numbers: [objective, 0], float: solver, x, z }, left)
}

/// All of them.
pub fn write(words: &mut Words) -> Counts {
    let random = &mut Random::new(22);
    for (entry, count) in KEPT {
        for turn in 0..count {
            let (call, left) = loop {
                let (call, left) = one(entry, turn % 3 == 2, random);
                if fits(&call, &left) && !is_free(&call, &left) {
                    break (call, left);
                }
            };
            put(words, &call, &left);
        }
    }
    let cases = KEPT.iter().map(|kept| kept.1 as u64).sum();
    Counts { cases, answers: cases }
}

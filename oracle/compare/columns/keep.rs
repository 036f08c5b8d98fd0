//! Kept answers of lengths, columns, selectors and ids: one call a case.

use super::asked::other_length;
use super::wanted::Wanted;
use crate::codes::{named, AXES, OPERANDS, PARAMETERS};
use crate::items::lengths;
use crate::keep::{Counts, Words};
use crate::left::{left, Left};
use crate::on_network::{fits, put, Call};
use crate::random::{Random, EXTREMES};
use crate::records::{damage, shapes, Network};
use crate::solved::Solved;
use plain::Refused;

/// The longest column that is kept.
const MOST: usize = 250;

/// The two numbers of a call, its x and z, and what it leaves.
type Made = ([u64; 2], Vec<f64>, Vec<f64>, Left);

/// An answer without lists.
fn plain_answer(numbers: [u64; 2], found: Result<u64, Refused>) -> Made {
    (numbers, vec![], vec![], left([0; 4], found.map(|value| (value, [&[][..]; 3], &[][..]))))
}

/// A code; one in twelve names nothing.
fn code(count: usize, random: &mut Random) -> u64 {
    let nothing = random.pick(&[count as u64, count as u64 + 1, EXTREMES[2], EXTREMES[6]]);
    if random.once_in(12) {
        nothing
    } else {
        random.below(count as u64)
    }
}

/// An index below `end`, or past it.
fn index(end: u64, random: &mut Random) -> u64 {
    if end == 0 || random.once_in(10) {
        random.pick(&[end, end + 1, EXTREMES[2], EXTREMES[6]])
    } else {
        random.below(end)
    }
}

fn parameter_len(wanted: &Wanted, random: &mut Random) -> Made {
    let code = code(PARAMETERS.len(), random);
    plain_answer([code, 0], wanted.parameter_len(code))
}

fn operand_len(wanted: &Wanted, random: &mut Random) -> Made {
    let code = code(OPERANDS.len(), random);
    plain_answer([code, 0], wanted.operand_len(code))
}

fn column(wanted: &Wanted, random: &mut Random) -> Made {
    let code = code(PARAMETERS.len(), random);
    let index = index(wanted.parameter_len(code).unwrap_or(3), random);
    let dim = wanted.dim();
    let lent = if random.once_in(6) { other_length(dim, random) } else { dim };
    let mut at = wanted.case.clone();
    if random.once_in(10) {
        at.misfit(random);
    }
    let found = wanted.column(&at, code, index, lent);
    let lists = found.as_ref().map(|column| (dim as u64, [&[][..]; 3], &column[..])).map_err(|&r| r);
    ([code, index], at.x, at.z, left([0, 0, 0, lent], lists))
}

fn selector(wanted: &Wanted, random: &mut Random) -> Made {
    let code = code(OPERANDS.len(), random);
    let lent = lengths(random, wanted.operand_len(code).unwrap_or(2) as usize);
    let found = wanted.selector(code, lent);
    let sign = found.as_ref().map_or(0.0, |found| found.1);
    let lists = found
        .as_ref()
        .map_err(|&r| r)
        .map(|(l, _)| (l.elements.len() as u64, [&l.starts[..], &l.rows[..], &l.elements[..]], &l.weights[..]));
    // Kept as starts, rows, elements; then weights.
    let [starts, rows, weights, elements] = lent;
    ([code, 0], vec![], vec![], Left { result: sign, ..left([starts, rows, elements, weights], lists) })
}

fn element_id(wanted: &Wanted, random: &mut Random) -> Made {
    let code = code(AXES.len(), random);
    let end = named(&AXES, code).and_then(|axis| wanted.axis(axis)).unwrap_or(9);
    let index = index(end.min(99), random);
    plain_answer([code, index], wanted.element_id(code, index))
}

/// One call, on a network that one time in six is damaged; whether it is kept.
fn one(words: &mut Words, entry: u64, make: fn(&Wanted, &mut Random) -> Made, random: &mut Random) -> bool {
    let mut network = Network::of(&shapes::any(random), random);
    if random.once_in(6) {
        damage::spoil(&mut network, random);
    }
    let case = &Solved::new(network, random);
    let found = case.system(|kkt| make(&Wanted { case, kkt: Ok(kkt) }, random));
    let (numbers, x, z, left) = match found {
        Ok(made) => made,
        Err(cause) => make(&Wanted { case, kkt: Err(cause) }, random),
    };
    let call = Call { entry, network: case.network.clone(), numbers, float: 0.0, x, z };
    // Most of the kept are answers, or tell what only this entry turns away.
    let wanted = [0, 8, 10].contains(&left.number) || random.once_in(4);
    let kept = wanted && left.floats.len() <= MOST && fits(&call, &left);
    if kept {
        put(words, &call, &left);
    }
    kept
}

/// All of them.
pub fn write(words: &mut Words) -> Counts {
    let random = &mut Random::new(14);
    let kinds: [(u64, u64, fn(&Wanted, &mut Random) -> Made); 5] =
        [(25, 8, parameter_len), (25, 9, operand_len), (140, 10, column), (80, 11, selector), (40, 12, element_id)];
    for (count, entry, make) in kinds {
        let mut kept = 0;
        while kept < count {
            kept += one(words, entry, make, random) as u64;
        }
    }
    let cases = kinds.iter().map(|kind| kind.0).sum();
    Counts { cases, answers: cases }
}

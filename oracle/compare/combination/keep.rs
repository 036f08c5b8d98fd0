//! Kept answers of interface and combination: one call a case.

use super::combine;
use super::lists::{lengths, Entries, Items};
use super::matrix;
use super::residual;
use super::transpose;
use crate::codes::{named, OPERANDS, PARAMETERS};
use crate::keep::{Counts, Words};
use crate::left::{bits, left, Left};
use crate::random::Random;
use plain::{refused, Refused};
use tellegen::faer::Mat;
use tellegen::sens::{max_abs, served_unit_scale, Selector};

/// One call: the entry, its numbers and its float, two lists of numbers and three of floats to read.
#[derive(Default)]
struct Call {
    entry: u64,
    numbers: [u64; 3],
    float: f64,
    read: [Vec<u32>; 2],
    floats: [Vec<f64>; 3],
}

fn put(words: &mut Words, call: &Call, left: &Left) {
    words.words(&[2, call.entry]);
    // No network.
    words.words(&[0; 5]);
    words.words(&call.numbers);
    words.word(bits(call.float));
    call.read.iter().for_each(|list| words.word(list.len() as u64));
    call.floats.iter().for_each(|list| words.word(list.len() as u64));
    left.put_head(words);
    call.read.iter().flatten().for_each(|&x| words.word(x as u64));
    call.floats.iter().flatten().for_each(|&x| words.word(bits(x)));
    left.put_lists(words);
}

fn unit_scale(random: &mut Random) -> (Call, Left) {
    let (o, p) = (random.below(15), random.below(21));
    let base = if random.once_in(3) { 4.0 } else { random.float() };
    let (number, result) = match (named(&OPERANDS, o), named(&PARAMETERS, p)) {
        (Some(o), Some(p)) => (0, served_unit_scale(o, p, base)),
        _ => (9, 0.0),
    };
    let call = Call { entry: 0, numbers: [o, p, 0], float: base, ..Call::default() };
    (call, Left { number, result, ..Left::default() })
}

fn selector_new(random: &mut Random) -> (Call, Left) {
    let items = random.below(6) as usize;
    let rows = random.numbers(items, 1 << 32);
    let other = if random.once_in(6) { items + 1 } else { items };
    let elements = random.numbers(other, 1 << 32);
    let short = random.below(10);
    let lent = [items + 1, items, items, items];
    let lent = [0, 1, 2, 3].map(|i| {
        if short == i as u64 {
            lent[i].saturating_sub(1)
        } else {
            lent[i] + random.below(2) as usize
        }
    });
    let made =
        Selector::new(rows.iter().map(|&x| x as usize).collect(), elements.iter().map(|&x| x as usize).collect(), 1.0);
    let starts: Vec<u32> = (0..=made.map.len() as u32).collect();
    let to_rows: Vec<u32> = made.map.iter().flatten().map(|e| e.0 as u32).collect();
    let weights: Vec<f64> = made.map.iter().flatten().map(|e| e.1).collect();
    let call = Call { entry: 1, read: [rows.clone(), elements.clone()], ..Call::default() };
    // Kept as starts, rows, elements; then weights. The entry looks at the weights before the elements.
    let needs = [items + 1, items, items, items];
    let first_short = (0..4).find(|&i| lent[i] < needs[i]);
    let found = match first_short {
        _ if other != items => refused(12, 0),
        Some(i) => refused(10, needs[i] as u64),
        None => Ok((items as u64, [&starts[..], &to_rows[..], &elements[..]], &weights[..])),
    };
    (call, left(lent, found))
}

fn largest(random: &mut Random) -> (Call, Left) {
    let length = random.below(9) as usize;
    let list = random.floats(length);
    let result = max_abs(&Mat::from_columns(length, 1, list.clone()));
    let call = Call { entry: 2, floats: [list, vec![], vec![]], ..Call::default() };
    (call, Left { result, ..Left::default() })
}

/// A list of floats where `length` are lent.
fn floats(found: Result<Vec<f64>, Refused>, random: &mut Random) -> Left {
    let need = found.as_ref().map_or(2, |list| list.len());
    let all = lengths(random, need);
    let length = random.pick(&all);
    let fits = found.and_then(|list| if length < need { refused(10, need as u64) } else { Ok(list) });
    left([0, 0, 0, length], fits.as_ref().map(|list| (list.len() as u64, [&[][..]; 3], &list[..])).map_err(|&r| r))
}

fn residuals(random: &mut Random) -> (Call, Left) {
    let c = residual::Case::any(random);
    let wanted = floats(c.expected(), random);
    let Entries { rows, cols, values } = c.entries;
    (
        Call {
            entry: 3,
            numbers: [c.dim, c.columns, 0],
            float: c.eps,
            read: [rows, cols],
            floats: [values, c.rhs, c.answer],
        },
        wanted,
    )
}

fn transposed(random: &mut Random) -> (Call, Left) {
    let dim = random.below(7);
    let mut entries = Entries::any(random, dim);
    if random.once_in(6) {
        entries.spoil(random, dim);
    }
    let need = entries.rows.len();
    let lent =
        [need; 3].map(|need| if random.once_in(8) { need.saturating_sub(1) } else { need + random.below(2) as usize });
    let found = transpose::expected(dim, &entries).and_then(|list| {
        if lent.iter().any(|&l| l < need) {
            refused(10, need as u64)
        } else {
            Ok(list)
        }
    });
    let lists =
        found.as_ref().map(|l| (need as u64, [&l.rows[..], &l.cols[..], &[][..]], &l.values[..])).map_err(|&r| r);
    let wanted = left([lent[0], lent[1], 0, lent[2]], lists);
    let Entries { rows, cols, values } = entries;
    (
        Call {
            entry: 4,
            numbers: [dim, 0, 0],
            read: [rows, cols],
            floats: [values, vec![], vec![]],
            ..Call::default()
        },
        wanted,
    )
}

fn selector_matrix(random: &mut Random) -> (Call, Left) {
    let dim = random.below(6);
    let mut items = Items::any(random, dim);
    if random.once_in(4) {
        items.spoil(random, dim);
    }
    let wanted = floats(matrix::expected(dim, &items), random);
    let Items { starts, rows, weights } = items;
    (
        Call {
            entry: 5,
            numbers: [dim, 0, 0],
            read: [starts, rows],
            floats: [weights, vec![], vec![]],
            ..Call::default()
        },
        wanted,
    )
}

fn combined(random: &mut Random) -> (Call, Left) {
    let c = combine::Case::any(random);
    let wanted = floats(c.expected(), random);
    let Items { starts, rows, weights } = c.items;
    let numbers = [c.mode, c.dim, c.columns];
    (Call { entry: 6, numbers, float: c.sign, read: [starts, rows], floats: [weights, c.rhs, c.solution] }, wanted)
}

/// All of them.
pub fn write(words: &mut Words) -> Counts {
    let random = &mut Random::new(10);
    let kinds: [(u64, fn(&mut Random) -> (Call, Left)); 7] = [
        (40, unit_scale),
        (30, selector_new),
        (20, largest),
        (60, residuals),
        (30, transposed),
        (40, selector_matrix),
        (100, combined),
    ];
    for (count, make) in kinds {
        for _ in 0..count {
            let (call, left) = make(random);
            put(words, &call, &left);
        }
    }
    let cases = kinds.iter().map(|kind| kind.0).sum();
    Counts { cases, answers: cases }
}

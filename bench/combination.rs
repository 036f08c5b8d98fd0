//! The residual pass and both combinations beside the Rust's own loops, with 8 columns.

use crate::clock::{head, line};
use crate::random::Random;
use std::hint::black_box;
use tellegen::faer::Mat;
use tellegen::sens::{adjoint, forward, regularized, residual};

const COLUMNS: usize = 8;
const EPS: f64 = 1e-9;
const ENTRIES: [usize; 3] = [10_000, 100_000, 1_000_000];

fn plain(random: &mut Random, count: usize) -> Vec<f64> {
    (0..count).map(|_| random.plain()).collect()
}

/// Items of `each` rows, as the Rust's map and as lists.
struct Items {
    map: Vec<Vec<(usize, f64)>>,
    starts: Vec<u32>,
    rows: Vec<u32>,
    weights: Vec<f64>,
}

impl Items {
    fn new(random: &mut Random, items: usize, each: usize, dim: usize) -> Self {
        let rows = random.numbers(items * each, dim as u64);
        let weights = plain(random, items * each);
        let all: Vec<(usize, f64)> = rows.iter().zip(&weights).map(|(&r, &w)| (r as usize, w)).collect();
        let starts = (0..=items).map(|o| (o * each) as u32).collect();
        Items { map: all.chunks(each).map(<[_]>::to_vec).collect(), starts, rows, weights }
    }
}

fn residuals(entries: usize, random: &mut Random) {
    let dim = entries / 4;
    let (rows, cols) = (random.numbers(entries, dim as u64), random.numbers(entries, dim as u64));
    let values = plain(random, entries);
    let (rhs, x) = (plain(random, dim * COLUMNS), plain(random, dim * COLUMNS));
    let triplets: Vec<_> = (0..entries).map(|i| (rows[i] as usize, cols[i] as usize, values[i])).collect();
    let mut reg = Some(regularized(dim, &triplets, EPS));
    let (b, y) = (Mat::from_columns(dim, COLUMNS, rhs.clone()), Mat::from_columns(dim, COLUMNS, x.clone()));
    let mut out = vec![0.0; dim * COLUMNS];
    let ours =
        || socwr::residual(dim as u64, COLUMNS as u64, &rows, &cols, &values, EPS, &rhs, &x, black_box(&mut out));
    let rust = || {
        let (list, made) = residual(reg.take().expect("the list"), black_box(&b), black_box(&y));
        reg = Some(list);
        made
    };
    line(&format!("residual, {entries} entries, dim {dim}"), ours, rust);
}

fn forwards(entries: usize, random: &mut Random) {
    let (items, dim) = (entries / 20, entries / 4);
    let list = Items::new(random, items, 20, dim);
    let solution = plain(random, dim * COLUMNS);
    let x = Mat::from_columns(dim, COLUMNS, solution.clone());
    let mut out = vec![0.0; items * COLUMNS];
    let ours = || {
        let Items { starts, rows, weights, .. } = &list;
        socwr::combine(0, dim as u64, COLUMNS as u64, starts, rows, weights, -1.0, &[], &solution, black_box(&mut out))
    };
    line(&format!("forward, {items} items of 20 rows"), ours, || {
        forward(COLUMNS, black_box(&list.map), -1.0, black_box(&x))
    });
}

/// `nonzeros` in each column of the right side.
fn adjoints(entries: usize, nonzeros: impl Fn(usize) -> usize, random: &mut Random) {
    let items = (entries as f64).sqrt() as usize / 10;
    let dim = entries / items;
    let count = nonzeros(dim);
    let list = Items::new(random, items, 1, dim);
    let mut rhs = vec![0.0; dim * COLUMNS];
    for c in 0..COLUMNS {
        (0..count).for_each(|i| rhs[c * dim + i * dim / count] = random.plain());
    }
    let solution = plain(random, dim * items);
    let (b, y) = (Mat::from_columns(dim, COLUMNS, rhs.clone()), Mat::from_columns(dim, items, solution.clone()));
    let mut out = vec![0.0; items * COLUMNS];
    let ours = || {
        let Items { starts, rows, weights, .. } = &list;
        socwr::combine(1, dim as u64, COLUMNS as u64, starts, rows, weights, -1.0, &rhs, &solution, black_box(&mut out))
    };
    let what = format!("adjoint, {items} items, dim {dim}, {count} nonzero");
    line(&what, ours, || adjoint(dim, COLUMNS, black_box(&list.map), -1.0, black_box(&b), black_box(&y)));
}

pub fn print() {
    println!("\nInterface and combination, {COLUMNS} columns. The Rust is the oracle's own loops.");
    let random = &mut Random::new(3);
    for entries in ENTRIES {
        head(&format!("{entries} entries"));
        residuals(entries, random);
        forwards(entries, random);
        adjoints(entries, |_| 12, random);
        adjoints(entries, |dim| dim, random);
    }
}

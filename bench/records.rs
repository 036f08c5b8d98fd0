//! The record check and each kind of lookup, on networks of several sizes.
//! Each entry checks the records anew, and so does the plain Rust beside it.

use crate::clock::{head, line, one, shown};
use crate::network::{Branch, Generator, Network, Shape};
use crate::random::Random;
use crate::shapes;
use plain::numbering as rust;
use plain::Counts;
use socwr::Net;
use std::hint::black_box;

/// One branch and a half for each bus, a generator for each four, every other with three segments.
fn usual(buses: u32) -> Shape {
    let branches =
        (0..buses * 3 / 2).map(|e| Branch { from: e % buses, to: (e + 1 + e / buses) % buses, flags: (e % 4) as u8 });
    let generators = (0..buses / 4).map(|g| Generator { bus: 4 * g, flags: 1 + (g % 2) as u8 * 2, segments: 3 });
    Shape { buses, branches: branches.collect(), generators: generators.collect() }
}

/// The bytes read once, as 64-bit words. Not inlined, so that every caller times the same code.
#[inline(never)]
pub fn read_once(bytes: &[u8]) -> u64 {
    let (words, _) = bytes.as_chunks::<8>();
    words.iter().fold(0, |sum, w| sum.wrapping_add(u64::from_le_bytes(*w)))
}

/// Each lookup asks for the last of its kind.
fn lookups(net: Net, c: Counts) {
    let b = net.records;
    let open = || rust::Network::new(black_box(c), black_box(b)).expect("accepted");
    let sizes = open().sizes();
    let last = |end: u64| end.saturating_sub(1);
    let limited = (0..c.m).rev().find(|&e| matches!(open().row_number(16, e, 0), Ok(Some(_)))).unwrap_or(0);
    let costly = (0..c.k).rev().find(|&g| matches!(open().column_number(9, g), Ok(Some(_)))).unwrap_or(0);
    line("layout_new", || socwr::layout_new(black_box(net)), || open().sizes());
    for (what, block, index) in [("column number, qt", 8, last(c.m)), ("column number, cost", 9, costly)] {
        line(what, || socwr::column_number(black_box(net), block, index), || open().column_number(block, index));
    }
    let rows = [
        ("row number, anglb", 13, last(c.m)),
        ("row number, cost", 14, costly),
        ("row number, jabr", 15, last(c.m)),
        ("row number, thermal", 16, limited),
    ];
    for (what, block, index) in rows {
        line(what, || socwr::row_number(black_box(net), block, index, 0), || open().row_number(block, index, 0));
    }
    line(
        "column name, last",
        || socwr::column_name(black_box(net), last(sizes.nvar)),
        || open().column_name(last(sizes.nvar)),
    );
    line("row name, last", || socwr::row_name(black_box(net), last(sizes.ncon)), || open().row_name(last(sizes.ncon)));
    let need = (2 + c.m + 2 * sizes.t) as usize;
    let (mut ours, mut theirs) = (vec![0; need], vec![0; need]);
    line("cones", || socwr::cones(black_box(net), &mut ours), || open().cones(&mut theirs));
}

fn one_size(title: &str, shape: &Shape) {
    let network = Network::of(shape, &mut Random::new(1));
    let c = network.counts;
    let net = Net { counts: c, records: &network.bytes };
    head(&format!("{title}: n {} m {} k {} S {}", c.n, c.m, c.k, c.s));
    println!("  {:<46}{:>12}", "the bytes read once", shown(one(|| read_once(black_box(net.records)))));
    line(
        "record check",
        || socwr::check_records(black_box(net)),
        || plain::check(black_box(c), black_box(net.records)),
    );
    lookups(net, c);
}

pub fn print() {
    println!("Records and numbering. Each entry checks the records first; so does the plain Rust.");
    for buses in [16, 128, 1024, 4096] {
        one_size("usual", &usual(buses));
    }
    one_size("largest", &shapes::largest(&mut Random::new(2), |e| e % 3 != 1));
}

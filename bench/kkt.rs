//! The KKT entries beside `ConicKkt::new`, on networks of several sizes.

use crate::clock::{growth, growth_head, head, line, one, shown};
use crate::grid::{Grid, BUSES};
use std::hint::black_box;
use tellegen::formulation::SocWr;
use tellegen::problem::build_conic_opf;
use tellegen::sens::{ConicKkt, Differentiable};

/// A system to list the entries of.
struct Case {
    grid: Grid,
    need: usize,
    bound: usize,
}

/// Three slices of one length.
struct Room {
    rows: Vec<u32>,
    cols: Vec<u32>,
    values: Vec<f64>,
}

impl Room {
    fn new(length: usize) -> Self {
        Room { rows: vec![0; length], cols: vec![0; length], values: vec![0.0; length] }
    }

    fn entries(&mut self, case: &Case) {
        let (net, at) = (case.grid.net(), &case.grid.solution);
        let answer = socwr::kkt_entries(black_box(net), &at.x, &at.z, &mut self.rows, &mut self.cols, &mut self.values);
        assert_eq!(black_box(answer).number, 0);
    }
}

impl Case {
    fn new(buses: u32) -> Self {
        let grid = Grid::new(buses);
        let c = grid.network.counts;
        let need = ConicKkt::new(&grid.rust, &grid.solution).map_or(0, |kkt| kkt.jacobian().len());
        let t = socwr::layout_new(grid.net()).t;
        let bound = 10 * c.n + 17 * c.k + 82 * c.m + 5 * c.s + 26 * t;
        Case { grid, need, bound: bound as usize }
    }

    /// The Rust's list; answers the matrix's size.
    fn rust(&self) -> usize {
        ConicKkt::new(black_box(&self.grid.rust), black_box(&self.grid.solution)).map_or(0, |kkt| kkt.dim())
    }

    fn line(&self, what: &str, length: usize) {
        let mut room = Room::new(length);
        line(what, || room.entries(self), || self.rust());
    }

    /// Into slices that are as long as the list may be, and into exact ones.
    fn lines(&self) {
        head(&format!("{}, {} entries", self.grid.title(), self.need));
        self.line("into demand 3's bound", self.bound);
        self.line("into exactly enough", self.need);
        let program = one(|| build_conic_opf(&SocWr::new(), black_box(&self.grid.rust)).b.len());
        println!("  {:<58}{:>12}", "of the Rust's, the program that it takes A from", shown(program));
    }
}

pub fn print() {
    println!("\nKKT entries. Ours check the records first. The Rust has its network at hand, and allocates;");
    println!("the compressed columns inside it are made by what stands in for clarabel.");
    let cases = BUSES.map(Case::new);
    for case in &cases {
        case.lines();
    }
    growth_head("KKT entries");
    let [_, _, small, large] = &cases;
    for (what, length) in
        [("into demand 3's bound", [small.bound, large.bound]), ("into exactly enough", [small.need, large.need])]
    {
        let [mut a, mut b] = length.map(Room::new);
        growth(what, || a.entries(small), || b.entries(large), || small.rust(), || large.rust());
    }
}

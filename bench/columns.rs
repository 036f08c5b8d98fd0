//! One column of each kind beside the Rust's and the record check together.

use crate::clock::{head, line};
use crate::grid::{Grid, BUSES};
use std::hint::black_box;
use tellegen::sens::Power::Active;
use tellegen::sens::{Bound, ConicKkt, CostTerm, Differentiable, Parameter, GB};

/// Code, parameter, and whether an element is one of a bus (0), a branch (1) or a generator (2).
const ASKED: [(&str, u64, Parameter, usize); 7] = [
    ("demand", 0, Parameter::Demand(Active), 0),
    ("cost, quadratic", 2, Parameter::Cost(CostTerm::Quadratic), 2),
    ("line limit", 4, Parameter::LineLimit, 1),
    ("series conductance", 5, Parameter::SeriesAdmittance(GB::Conductance), 1),
    ("shunt susceptance", 8, Parameter::ShuntAdmittance(GB::Susceptance), 0),
    ("voltage bound, max", 10, Parameter::VoltageBound(Bound::Max), 0),
    ("generator bound, active min", 11, Parameter::GenBound { power: Active, bound: Bound::Min }, 2),
];

fn one_size(buses: u32) {
    let grid = Grid::new(buses);
    let at = &grid.solution;
    let kkt = ConicKkt::new(&grid.rust, at).unwrap_or_else(|error| panic!("{error}"));
    let c = grid.network.counts;
    let mut column = vec![0.0; kkt.dim()];
    head(&format!("{}, columns of {}", grid.title(), kkt.dim()));
    for (what, code, parameter, axis) in ASKED {
        // The last of its kind: a limited branch, a generator without piecewise cost.
        let index = [c.n, c.m, c.k][axis] - 1;
        let ours = || socwr::parameter_jacobian(black_box(grid.net()), &at.x, &at.z, code, index, &mut column);
        let rust = || {
            let checked = socwr::check_records(black_box(grid.net()));
            (checked.number, kkt.parameter_jacobian(black_box(parameter), &[index as usize]).is_ok())
        };
        line(what, ours, rust);
    }
}

pub fn print() {
    println!(
        "\nColumns. The Rust makes one column of a system at hand; the time of our record check is added to its own."
    );
    BUSES.into_iter().for_each(one_size);
}

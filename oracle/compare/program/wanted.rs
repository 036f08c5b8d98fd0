//! What the entries of program and reading should answer: the record check's refusal, else the Rust's answer.

use super::lists::Lists;
use crate::records::Network;
use plain::{refused, Counts, Refused};
use tellegen::clarabel::algebra::CscMatrix;
use tellegen::formulation::SocWr;
use tellegen::model::AcNetwork;
use tellegen::powerio_matrix::PreparedObjective::{self, Feasibility, NetworkGeneratorCost, Other};
use tellegen::problem::conic::read_socwr;
use tellegen::problem::{build_conic_opf, OpfProgram, SocWrLayout, SocWrSolution};
use tellegen::solve::RawSolution;

/// The objectives by code.
const OBJECTIVES: [PreparedObjective; 3] = [Feasibility, NetworkGeneratorCost, Other];

/// The Rust's network, layout and program.
pub struct Made {
    net: AcNetwork,
    pub layout: SocWrLayout,
    program: OpfProgram,
}

pub struct Wanted {
    pub found: Result<Made, Refused>,
}

fn numbers(list: &[usize]) -> Vec<u32> {
    list.iter().map(|&x| x as u32).collect()
}

fn columns(matrix: &CscMatrix<f64>) -> Lists {
    Lists { numbers: vec![numbers(&matrix.colptr), numbers(&matrix.rowval)], floats: matrix.nzval.clone() }
}

fn floats(list: &[f64]) -> Lists {
    Lists { numbers: vec![], floats: list.to_vec() }
}

impl Made {
    fn of(network: &Network) -> Self {
        let Counts { n, m, k, s } = network.counts;
        let [n, m, k, s] = [n, m, k, s].map(|x| x as usize);
        let net = tellegen::records::network(n, m, k, s, &network.bytes, 1.0, Feasibility);
        let layout = SocWrLayout::new(&net);
        let program = build_conic_opf(&SocWr::new(), &net);
        Made { net, layout, program }
    }

    /// The Rust's solution from x, z and the solver's number.
    fn read(&mut self, objective: PreparedObjective, x: &[f64], z: &[f64], solver: f64) -> SocWrSolution {
        self.net.objective = objective;
        let raw = RawSolution { x: x.to_vec(), z: z.to_vec(), objective: solver, iterations: vec![] };
        read_socwr(&self.net, &self.layout, &raw)
    }

    /// An x or z whose elements are not looked at.
    fn blank(length: usize) -> Vec<f64> {
        vec![f64::NAN; length]
    }
}

impl Wanted {
    pub fn of(network: &Network) -> Self {
        Wanted { found: plain::check(network.counts, &network.bytes).map(|()| Made::of(network)) }
    }

    fn made(&self) -> Result<&Made, Refused> {
        self.found.as_ref().map_err(|&r| r)
    }

    /// nvar and ncon; some small lengths on a refusal.
    pub fn lengths(&self) -> (usize, usize) {
        self.found.as_ref().map_or((3, 5), |made| (made.layout.nvar, made.layout.ncon))
    }

    pub fn p(&self) -> Result<Lists, Refused> {
        self.made().map(|made| columns(&made.program.p))
    }

    pub fn a(&self) -> Result<Lists, Refused> {
        self.made().map(|made| columns(&made.program.a))
    }

    pub fn q(&self) -> Result<Lists, Refused> {
        self.made().map(|made| floats(&made.program.q))
    }

    pub fn b(&self) -> Result<Lists, Refused> {
        self.made().map(|made| floats(&made.program.b))
    }

    pub fn reading_check(&self, x: &[f64], z: &[f64]) -> Result<u64, Refused> {
        let layout = &self.made()?.layout;
        match (x.len() == layout.nvar, z.len() == layout.ncon) {
            (false, _) => refused(6, 0),
            (_, false) => refused(6, 1),
            _ => Ok(0),
        }
    }

    pub fn prices(&mut self, z: &[f64]) -> Result<Lists, Refused> {
        let x = Made::blank(self.lengths().0);
        self.reading_check(&x, z)?;
        let made = self.found.as_mut().map_err(|r| *r)?;
        let read = made.read(Other, &x, z, 0.0);
        Ok(Lists { numbers: vec![], floats: [read.lmp, read.lmp_q].concat() })
    }

    pub fn objective(&mut self, objective: u64, x: &[f64], solver: f64) -> Result<f64, Refused> {
        let z = Made::blank(self.lengths().1);
        self.reading_check(x, &z)?;
        let Some(&code) = OBJECTIVES.get(objective.min(9) as usize) else {
            return refused(7, objective);
        };
        let made = self.found.as_mut().map_err(|r| *r)?;
        Ok(made.read(code, x, &z, solver).objective)
    }

    /// Whether the sign of a zero is free in this objective.
    pub fn sign_is_free(&self, objective: u64) -> bool {
        let piecewise = |made: &Made| made.net.piecewise_costs.iter().any(|cost| cost.is_some());
        objective == 1 && self.found.as_ref().is_ok_and(piecewise)
    }

    /// The nine lists that the Rust copies from x, in the order of the blocks.
    pub fn parts(&mut self, x: &[f64]) -> Result<[Vec<f64>; 9], Refused> {
        let z = Made::blank(self.lengths().1);
        self.reading_check(x, &z)?;
        let made = self.found.as_mut().map_err(|r| *r)?;
        let SocWrSolution { pg, qg, w, wr, wi, pf, pt, qf, qt, .. } = made.read(Other, x, &z, 0.0);
        Ok([pg, qg, w, wr, wi, pf, pt, qf, qt])
    }
}

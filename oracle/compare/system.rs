//! The Rust's network, and a solution of it, from records and from an x and a z.

use plain::Counts;
use tellegen::model::AcNetwork;
use tellegen::powerio_matrix::PreparedObjective;
use tellegen::problem::conic::read_socwr;
use tellegen::problem::{SocWrLayout, SocWrSolution};
use tellegen::solve::RawSolution;

/// The network of records that passed the record check.
pub fn network(counts: Counts, records: &[u8]) -> AcNetwork {
    let [n, m, k, s] = [counts.n, counts.m, counts.k, counts.s].map(|x| x as usize);
    tellegen::records::network(n, m, k, s, records, 1.0, PreparedObjective::Feasibility)
}

/// A solution that holds x and z, whatever their lengths.
pub fn solution(net: &AcNetwork, layout: &SocWrLayout, x: &[f64], z: &[f64]) -> SocWrSolution {
    let zeros = |length| vec![0.0; length];
    let raw = RawSolution { x: zeros(layout.nvar), z: zeros(layout.ncon), objective: 0.0, iterations: vec![] };
    let mut made = read_socwr(net, layout, &raw);
    (made.x, made.z) = (x.to_vec(), z.to_vec());
    made
}

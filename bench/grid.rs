//! Networks with a solution, as large as they get: k = n, m = 2n, seven branches of eight limited,
//! every eighth generator with four segments.

use crate::full::{nonzero, set_floats};
use crate::network::{Branch, Generator, Network, Shape};
use crate::random::Random;
use crate::system;
use socwr::Net;
use tellegen::model::AcNetwork;
use tellegen::problem::{SocWrLayout, SocWrSolution};

pub const BUSES: [u32; 4] = [16, 128, 1024, 4096];

pub struct Grid {
    pub network: Network,
    pub rust: AcNetwork,
    pub solution: SocWrSolution,
}

fn shape(buses: u32) -> Shape {
    let branch = |e: u32| {
        let step = 1 + e / buses * 3;
        let (a, b) = (e % buses, (e % buses + step) % buses);
        let (from, to) = if e % 3 == 0 { (b, a) } else { (a, b) };
        Branch { from, to, flags: if e % 8 == 5 { 2 } else { 3 } }
    };
    let generator = |g: u32| Generator { bus: g * 7 % buses, flags: if g % 8 == 3 { 3 } else { 1 }, segments: 4 };
    Shape { buses, branches: (0..2 * buses).map(branch).collect(), generators: (0..buses).map(generator).collect() }
}

impl Grid {
    pub fn new(buses: u32) -> Self {
        let random = &mut Random::new(4);
        let mut network = Network::of(&shape(buses), random);
        set_floats(&mut network.bytes, random);
        let rust = system::network(network.counts, &network.bytes);
        let layout = SocWrLayout::new(&rust);
        let mut list = |length: usize| (0..length).map(|_| nonzero(random)).collect::<Vec<f64>>();
        let (x, z) = (list(layout.nvar), list(layout.ncon));
        let solution = system::solution(&rust, &layout, &x, &z);
        Grid { network, rust, solution }
    }

    pub fn net(&self) -> Net<'_> {
        Net { counts: self.network.counts, records: &self.network.bytes }
    }

    /// What is measured.
    pub fn title(&self) -> String {
        let c = self.network.counts;
        format!("n {} m {} k {} S {}", c.n, c.m, c.k, c.s)
    }
}

//! The networks on which program and reading are compared.

use super::case::Case;
use super::cases::special;
use super::matrices::Matrices;
use super::reading::Reading;
use crate::random::Random;
use crate::records::{damage, shapes, Branch, Generator, Network, Shape};

const RANDOM: u64 = 22_000;
const DAMAGED: u64 = 10_000;

/// The largest network, one whose branches and generators all meet at a bus, and one with the most
/// segments at a generator.
fn extremes(random: &mut Random) -> [Shape; 3] {
    let largest = shapes::largest(random, |e| e % 3 != 1);
    let branches = (0..8190).map(|e| Branch { from: e % 2 * (1 + e / 2), to: (1 - e % 2) * (1 + e / 2), flags: 3 });
    let generator = Generator { bus: 0, flags: 1, segments: 0 };
    let hub = Shape { buses: 4096, branches: branches.collect(), generators: vec![generator; 4096] };
    let mut one = Shape { buses: 1, ..Shape::default() };
    one.generators = [0, 65535, 1].map(|segments| Generator { bus: 0, flags: 2, segments }).to_vec();
    [largest, hub, one]
}

/// The subjects of this part.
struct Program {
    matrices: Matrices,
    reading: Reading,
}

impl Program {
    /// Every answer on the network.
    fn compare(&mut self, network: &Network, random: &mut Random) {
        let mut case = Case::of(network);
        self.matrices.compare(&case, random);
        self.reading.compare(&mut case, random);
    }
}

/// All of it; whether nothing differs.
pub fn compare() -> bool {
    let random = &mut Random::new(21);
    let mut program = Program { matrices: Matrices::new(), reading: Reading::new() };
    for shape in shapes::small() {
        let mut network = Network::of(&shape, random);
        special(&mut network, random);
        program.compare(&network, random);
    }
    for turn in 0..RANDOM + DAMAGED {
        let mut network = Network::of(&shapes::any(random), random);
        special(&mut network, random);
        if turn >= RANDOM {
            damage::spoil(&mut network, random);
        }
        program.compare(&network, random);
    }
    for shape in extremes(random) {
        let mut network = Network::of(&shape, random);
        special(&mut network, random);
        program.compare(&network, random);
    }
    let matrices = program.matrices.done();
    program.reading.done() && matrices
}

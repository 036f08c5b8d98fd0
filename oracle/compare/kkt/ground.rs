//! The networks and solutions on which the KKT entries are compared.

use super::entries::Kkt;
use crate::random::Random;
use crate::records::{damage, shapes, Network};
use crate::solved::Solved;

const RANDOM: u64 = 22_000;
const FULL: u64 = 2_000;
const MISFIT: u64 = 4_000;
const DAMAGED: u64 = 12_000;

fn any(random: &mut Random) -> Network {
    Network::of(&shapes::any(random), random)
}

/// The largest network: with all entries, and with floats of every kind.
fn largest(kkt: &mut Kkt, random: &mut Random) {
    let full = Network::of(&shapes::largest(random, |_| true), random);
    kkt.compare_large(&Solved::full(full, random));
    let network = Network::of(&shapes::largest(random, |e| e % 3 != 1), random);
    kkt.compare_large(&Solved::new(network, random));
}

/// All of it; whether nothing differs.
pub fn compare() -> bool {
    let random = &mut Random::new(11);
    let mut kkt = Kkt::new();
    for shape in shapes::small() {
        let network = Network::of(&shape, random);
        kkt.compare(&Solved::new(network, random), random);
    }
    for _ in 0..RANDOM {
        let network = any(random);
        kkt.compare(&Solved::new(network, random), random);
    }
    for _ in 0..FULL {
        let network = any(random);
        kkt.compare(&Solved::full(network, random), random);
    }
    for _ in 0..MISFIT {
        let network = any(random);
        let mut case = Solved::new(network, random);
        case.misfit(random);
        kkt.compare(&case, random);
    }
    for _ in 0..DAMAGED {
        let mut network = any(random);
        damage::spoil(&mut network, random);
        kkt.compare(&Solved::new(network, random), random);
    }
    largest(&mut kkt, random);
    kkt.done()
}

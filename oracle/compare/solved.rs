//! A network with an x and a z, and the Rust's KKT system of them.

use crate::full::{nonzero, set_flags, set_floats};
use crate::lent::Lent;
use crate::random::Random;
use crate::records::Network;
use crate::system;
use plain::{refused, Refused};
use socwr::Net;
use tellegen::problem::SocWrLayout;
use tellegen::sens::ConicKkt;

#[derive(Clone)]
pub struct Solved {
    pub network: Network,
    pub x: Vec<f64>,
    pub z: Vec<f64>,
}

/// Floats of a solution; one list in five is mostly zeros of either sign.
fn floats(random: &mut Random, count: usize) -> Vec<f64> {
    if !random.once_in(5) {
        return random.floats(count);
    }
    (0..count).map(|_| if random.once_in(4) { random.listed() } else { random.pick(&[0.0, -0.0]) }).collect()
}

/// The list becomes shorter or longer.
fn misfit(list: &mut Vec<f64>, random: &mut Random) {
    let length = list.len();
    let other = if length > 0 && random.once_in(2) {
        random.pick(&[length - 1, length / 2, 0])
    } else {
        length + random.pick(&[1, 2, 7])
    };
    list.resize(other, 1.0);
}

impl Solved {
    /// With an x and a z that fit; of some length where the records are turned away.
    pub fn new(network: Network, random: &mut Random) -> Self {
        let (nvar, ncon) = match plain::check(network.counts, &network.bytes) {
            Ok(()) => {
                let layout = SocWrLayout::new(&system::network(network.counts, &network.bytes));
                (layout.nvar, layout.ncon)
            }
            Err(_) => (random.below(30) as usize, random.below(60) as usize),
        };
        Solved { network, x: floats(random, nvar), z: floats(random, ncon) }
    }

    /// With every flag set but the piecewise one, and no zero among its floats: no entry is dropped.
    pub fn full(mut network: Network, random: &mut Random) -> Self {
        set_flags(&mut network.bytes);
        set_floats(&mut network.bytes, random);
        let mut made = Solved::new(network, random);
        made.x.iter_mut().chain(&mut made.z).for_each(|x| *x = nonzero(random));
        made
    }

    /// Another length of x, of z, or of both.
    pub fn misfit(&mut self, random: &mut Random) {
        let which = random.below(3);
        if which != 1 {
            misfit(&mut self.x, random);
        }
        if which != 0 {
            misfit(&mut self.z, random);
        }
    }

    /// What `then` reads off the Rust's system, or the cause of 1 to 6.
    pub fn system<T>(&self, then: impl FnOnce(&ConicKkt) -> T) -> Result<T, Refused> {
        plain::check(self.network.counts, &self.network.bytes)?;
        let net = system::network(self.network.counts, &self.network.bytes);
        let layout = SocWrLayout::new(&net);
        let made = system::solution(&net, &layout, &self.x, &self.z);
        match ConicKkt::new(&net, &made) {
            Ok(kkt) => Ok(then(&kkt)),
            // The Rust has one error, for both lists.
            Err(_) => refused(6, (self.x.len() == layout.nvar) as u64),
        }
    }

    /// How large a case is.
    pub fn size(&self) -> usize {
        self.network.size() + self.x.len() + self.z.len()
    }
}

/// A network, x and z as they are lent.
pub struct Given<'a> {
    network: &'a Network,
    records: Lent<u8>,
    x: Lent<f64>,
    z: Lent<f64>,
}

impl<'a> Given<'a> {
    pub fn of(case: &'a Solved) -> Self {
        let records = Lent::of(&case.network.bytes);
        Given { network: &case.network, records, x: Lent::of(&case.x), z: Lent::of(&case.z) }
    }

    pub fn net(&self) -> Net<'_> {
        Net { counts: self.network.counts, records: self.records.slice() }
    }

    pub fn x(&self) -> &[f64] {
        self.x.slice()
    }

    pub fn z(&self) -> &[f64] {
        self.z.slice()
    }

    pub fn untouched(&self) -> bool {
        self.records.untouched() && self.x.untouched() && self.z.untouched()
    }
}

//! The networks and solutions on which columns, selectors, lengths and ids are compared.

use super::one::One;
use super::wanted::Wanted;
use super::{ids, jacobian, lengths, selector};
use crate::random::Random;
use crate::records::{damage, shapes, Network};
use crate::report::Subject;
use crate::solved::{Given, Solved};

const RANDOM: u64 = 12_000;
const DAMAGED: u64 = 8_000;
/// No bound on the indices asked of an axis.
const ALL: u64 = u64::MAX;

type Compare = fn(&mut Subject, &One, &mut Random);

/// Each subject with what it compares.
struct Columns(Vec<(Subject, Vec<Compare>)>);

impl Columns {
    fn new() -> Self {
        Columns(vec![
            (Subject::new("parameter len"), vec![lengths::parameters]),
            (Subject::new("operand len"), vec![lengths::operands]),
            (Subject::new("columns"), vec![jacobian::columns, jacobian::misfits]),
            (Subject::new("selectors"), vec![selector::selectors]),
            (Subject::new("element ids"), vec![ids::ids]),
        ])
    }

    fn on(&mut self, wanted: Wanted, most: u64, random: &mut Random) {
        let given = Given::of(wanted.case);
        let one = One { wanted, given, most };
        for (subject, all) in &mut self.0 {
            all.iter().for_each(|compare| compare(subject, &one, random));
        }
    }

    /// Every answer on the network; `most` indices of an axis.
    fn compare(&mut self, network: Network, most: u64, random: &mut Random) {
        let case = &Solved::new(network, random);
        let found = case.system(|kkt| self.on(Wanted { case, kkt: Ok(kkt) }, most, random));
        if let Err(cause) = found {
            self.on(Wanted { case, kkt: Err(cause) }, 2, random);
        }
    }
}

/// All of it; whether nothing differs.
pub fn compare() -> bool {
    let random = &mut Random::new(13);
    let mut columns = Columns::new();
    for shape in shapes::small() {
        let network = Network::of(&shape, random);
        columns.compare(network, ALL, random);
    }
    for _ in 0..RANDOM {
        let network = Network::of(&shapes::any(random), random);
        columns.compare(network, ALL, random);
    }
    for _ in 0..DAMAGED {
        let mut network = Network::of(&shapes::any(random), random);
        damage::spoil(&mut network, random);
        columns.compare(network, ALL, random);
    }
    let network = Network::of(&shapes::largest(random, |e| e % 3 != 1), random);
    columns.compare(network, 4, random);
    columns.0.iter().fold(true, |right, (subject, _)| subject.done() && right)
}

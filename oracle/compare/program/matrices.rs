//! P, q, A and b on one network, held against the Rust's assembly.

use super::case::Case;
use super::lists::Outputs;
use crate::random::Random;
use crate::report::Subject;

pub struct Matrices {
    p: Subject,
    q: Subject,
    a: Subject,
    b: Subject,
}

impl Matrices {
    pub fn new() -> Self {
        let [p, q, a, b] = ["P", "q", "A", "b"].map(Subject::new);
        Matrices { p, q, a, b }
    }

    pub fn compare(&mut self, case: &Case, random: &mut Random) {
        let net = case.net();
        [&mut self.p, &mut self.q, &mut self.a, &mut self.b].into_iter().for_each(Subject::case);
        let p =
            |out: &mut Outputs| (out.three(|starts, rows, values| socwr::program_p(net, starts, rows, values)), true);
        case.hold_lists(&mut self.p, random, case.wanted.p(), &[3, 2, 2], p);
        let q = |out: &mut Outputs| (out.one(|q| socwr::program_q(net, q)), true);
        case.hold_lists(&mut self.q, random, case.wanted.q(), &[3], q);
        let a =
            |out: &mut Outputs| (out.three(|starts, rows, values| socwr::program_a(net, starts, rows, values)), true);
        case.hold_lists(&mut self.a, random, case.wanted.a(), &[3, 5, 5], a);
        let b = |out: &mut Outputs| (out.one(|b| socwr::program_b(net, b)), true);
        case.hold_lists(&mut self.b, random, case.wanted.b(), &[4], b);
    }

    pub fn done(&self) -> bool {
        // Each prints its line.
        [&self.p, &self.q, &self.a, &self.b].into_iter().fold(true, |right, subject| subject.done() && right)
    }
}

//! The reading of a solution on one network, held against `read_socwr`.

use super::case::Case;
use super::cases::{other_length, vector};
use super::lists::Outputs;
use crate::lent::{Element, Lent};
use crate::outcome::{answer, brief};
use crate::random::{same, Random, EXTREMES};
use crate::report::Subject;
use plain::Refused;

/// An x and a z, each of the right length or not.
struct Vectors {
    x: Lent<f64>,
    z: Lent<f64>,
}

impl Vectors {
    fn of(case: &Case, random: &mut Random, right: [bool; 2]) -> Self {
        let (nvar, ncon) = case.wanted.lengths();
        let [x, z] = [(nvar, right[0]), (ncon, right[1])].map(|(length, right)| {
            let length = if right { length } else { other_length(random, length) };
            Lent::of(&vector(random, length))
        });
        Vectors { x, z }
    }

    fn kept(&self) -> bool {
        self.x.untouched() && self.z.untouched()
    }

    fn describe(&self) -> String {
        let (x, z) = (self.x.slice(), self.z.slice());
        format!("x of {} {}, z of {} {}", x.len(), brief(x), z.len(), brief(z))
    }
}

/// The subjects of this part, how often the sign of a zero was free, and how often it was the other one.
pub struct Reading {
    zeros: u64,
    freed: u64,
    check: Subject,
    prices: Subject,
    objective: Subject,
    parts: Subject,
}

impl Reading {
    pub fn new() -> Self {
        let [check, prices, objective, parts] =
            ["reading check", "prices", "objective", "parts of x"].map(Subject::new);
        Reading { zeros: 0, freed: 0, check, prices, objective, parts }
    }

    /// Every answer with vectors of the right length, and with others.
    pub fn compare(&mut self, case: &mut Case, random: &mut Random) {
        [&mut self.check, &mut self.prices, &mut self.objective, &mut self.parts].into_iter().for_each(Subject::case);
        for right in [[true, true], [false, true], [true, false], [false, false]] {
            let vectors = Vectors::of(case, random, right);
            self.check(case, &vectors);
            self.prices(case, &vectors, random);
            self.objectives(case, &vectors, random);
            self.parts(case, &vectors);
        }
    }

    fn check(&mut self, case: &Case, v: &Vectors) {
        let want = answer(case.wanted.reading_check(v.x.slice(), v.z.slice()));
        let got = socwr::reading_check(case.net(), v.x.slice(), v.z.slice());
        let what = || format!("reading_check gave {got:?}, not {want:?}; {}", v.describe());
        case.hold(&mut self.check, want.number, got == want && v.kept(), what);
    }

    fn prices(&mut self, case: &mut Case, v: &Vectors, random: &mut Random) {
        let want = case.wanted.prices(v.z.slice());
        let net = case.net();
        let call = |out: &mut Outputs| (out.one(|prices| socwr::prices(net, v.z.slice(), prices)), v.kept());
        case.hold_lists(&mut self.prices, random, want, &[4], call);
    }

    fn objectives(&mut self, case: &mut Case, v: &Vectors, random: &mut Random) {
        for objective in [0, 1, 2, 3, 4 + random.below(20), random.pick(&EXTREMES)] {
            let (solver, free) = (random.float(), case.wanted.sign_is_free(objective));
            let want = case.wanted.objective(objective, v.x.slice(), solver);
            let got = socwr::objective(case.net(), objective, v.x.slice(), solver);
            let (number, value, result) = match want {
                Ok(result) => (0, 0, result),
                Err(Refused { number, value }) => (number, value, 0.0),
            };
            let zero = free && number == 0 && got.result == 0.0 && result == 0.0;
            self.zeros += zero as u64;
            self.freed += (zero && !same(got.result, result)) as u64;
            let result_is = zero || same(got.result, result);
            let right = got.number == number && got.value == value && result_is && v.kept();
            let what = || format!("objective {objective} with {solver:?} gave {got:?}, not {want:?}; {}", v.describe());
            case.hold(&mut self.objective, number, right, what);
        }
    }

    /// The lists that a caller takes from x, each at the number of its block's first column.
    fn parts(&mut self, case: &mut Case, v: &Vectors) {
        let Ok(parts) = case.wanted.parts(v.x.slice()) else { return };
        for (block, part) in parts.iter().enumerate().filter(|(_, part)| !part.is_empty()) {
            let got = socwr::column_number(case.net(), block as u64, 0);
            let taken = v.x.slice().get(got.value as usize..).and_then(|rest| rest.get(..part.len()));
            let right = got.number == 0 && taken.is_some_and(|taken| f64::identical(taken, part));
            let what = || format!("block {block} begins with {got:?}, and x is not {} there", brief(part));
            case.hold(&mut self.parts, 0, right && v.kept(), what);
        }
    }

    pub fn done(&self) -> bool {
        let subjects = [&self.check, &self.prices, &self.objective, &self.parts];
        // Each prints its line.
        let right = subjects.into_iter().fold(true, |right, subject| subject.done() && right);
        println!(
            "  of {} objectives that are a zero whose sign is free, {} have the other sign",
            self.zeros, self.freed
        );
        right
    }
}

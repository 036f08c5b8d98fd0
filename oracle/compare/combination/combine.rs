//! Both combinations of `forward_adjoint`, with the solution given.

use super::lists::{matrix, Items, MOST_COLUMNS, MOST_DIM};
use super::one_list::OneList;
use crate::lent::Lent;
use crate::outcome::brief;
use crate::random::Random;
use crate::random::EXTREMES;
use crate::report::Subject;
use plain::{refused, Refused};
use tellegen::faer::Mat;
use tellegen::sens::{forward_adjoint, Mode};

const FORWARD: u64 = 0;
const ADJOINT: u64 = 1;
const AUTO: u64 = 2;

#[derive(Debug)]
pub struct Case {
    pub mode: u64,
    pub dim: u64,
    pub columns: u64,
    pub items: Items,
    pub sign: f64,
    pub rhs: Vec<f64>,
    pub solution: Vec<f64>,
}

impl Case {
    /// A small case; about one in four is broken.
    pub fn any(random: &mut Random) -> Self {
        let mode = match random.below(20) {
            0 => AUTO,
            1 => random.pick(&[3, 4, EXTREMES[1], EXTREMES[2], EXTREMES[4], EXTREMES[6]]),
            x => x % 2,
        };
        let (dim, columns) = (random.below(7), random.below(5));
        let mut items = Items::any(random, dim);
        let count = items.count() as u64;
        let broken = random.below(12);
        if broken < 2 {
            items.spoil(random, dim);
        }
        let sign = if random.once_in(4) { random.float() } else { random.pick(&[1.0, -1.0]) };
        let rhs = matrix(random, dim, columns, broken == 2);
        let width = if mode == ADJOINT { count } else { columns };
        let solution = matrix(random, dim, width, broken == 3);
        Case { mode, dim, columns, items, sign, rhs, solution }
    }

    /// A case of these sizes with matrices of the length that they would ask for, kept below a million.
    fn sized(random: &mut Random, mode: u64, dim: u64, columns: u64, items: Items) -> Self {
        let length = |width: u64| dim.wrapping_mul(width).min(1 << 20) as usize;
        let width = if mode == ADJOINT { items.count() as u64 } else { columns };
        let (rhs, solution) = (random.floats(length(columns)), random.floats(length(width)));
        Case { mode, dim, columns, items, sign: -1.0, rhs, solution }
    }

    fn refusal(&self) -> Result<(), Refused> {
        match self.mode {
            FORWARD | ADJOINT => {}
            AUTO => return refused(11, 0),
            mode => return refused(7, mode),
        }
        if self.columns > MOST_COLUMNS || !self.items.fit(self.dim) {
            return refused(12, 0);
        }
        let of = |list: &[f64], width: u64| list.len() as u64 == self.dim * width;
        let fits = match self.mode {
            FORWARD => of(&self.solution, self.columns),
            _ => of(&self.rhs, self.columns) && of(&self.solution, self.items.count() as u64),
        };
        if fits {
            Ok(())
        } else {
            refused(12, 0)
        }
    }

    pub fn expected(&self) -> Result<Vec<f64>, Refused> {
        self.refusal()?;
        let (dim, columns) = (self.dim as usize, self.columns as usize);
        let (mode, width, rhs) = match self.mode {
            // The forward combination only counts the columns of the right side.
            FORWARD => (Mode::Forward, columns, Mat::zeros(0, columns)),
            _ => (Mode::Adjoint, self.items.count(), Mat::from_columns(dim, columns, self.rhs.clone())),
        };
        let solve = |_: &[(usize, usize, f64)], _: Mat<f64>| Ok(Mat::from_columns(dim, width, self.solution.clone()));
        let made = forward_adjoint(dim, &[], rhs, &self.items.map(), self.sign, mode, solve);
        Ok(made.expect("an answer").concat())
    }

    fn compare(&self, subject: &mut Subject, random: &mut Random) {
        let i = &self.items;
        let (starts, rows, weights) = (Lent::of(&i.starts), Lent::of(&i.rows), Lent::of(&i.weights));
        let (rhs, solution) = (Lent::of(&self.rhs), Lent::of(&self.solution));
        let size = i.size() + self.rhs.len() + self.solution.len();
        let list = OneList { subject, size, want: self.expected() };
        let call = |out: &mut [f64]| {
            let (s, r, w) = (starts.slice(), rows.slice(), weights.slice());
            socwr::combine(self.mode, self.dim, self.columns, s, r, w, self.sign, rhs.slice(), solution.slice(), out)
        };
        let kept =
            || starts.untouched() && rows.untouched() && weights.untouched() && rhs.untouched() && solution.untouched();
        let what = || {
            let lists = format!("starts {} rows {} weights {}", brief(&i.starts), brief(&i.rows), brief(&i.weights));
            let matrices = format!("rhs {} solution {}", brief(&self.rhs), brief(&self.solution));
            format!(
                "combine mode {} dim {} columns {} sign {:?} {lists} {matrices}",
                self.mode, self.dim, self.columns, self.sign
            )
        };
        list.hold(random, call, kept, what);
    }
}

/// Sizes at and past the limits.
fn limits(subject: &mut Subject, random: &mut Random) {
    for mode in [FORWARD, ADJOINT] {
        for (dim, columns) in super::residual::LIMITS {
            let items = Items::any(random, dim.min(1 << 32));
            Case::sized(random, mode, dim, columns, items).compare(subject, random);
            let none = Items { starts: vec![0], rows: vec![], weights: vec![] };
            Case::sized(random, mode, dim, columns, none).compare(subject, random);
        }
        for count in [MOST_COLUMNS - 1, MOST_COLUMNS, MOST_COLUMNS + 1] {
            let items = Items::plain(random, count as usize, 3);
            Case::sized(random, mode, 3, 2, items).compare(subject, random);
            let empty = Items { starts: vec![0; count as usize + 1], rows: vec![], weights: vec![] };
            Case::sized(random, mode, 0, 3, empty).compare(subject, random);
        }
        let outside = Items { starts: vec![0, 1], rows: vec![MOST_DIM as u32], weights: vec![1.0] };
        Case::sized(random, mode, MOST_DIM, 1, outside).compare(subject, random);
    }
}

/// All of it; whether nothing differs.
pub fn compare() -> bool {
    let random = &mut Random::new(8);
    let mut subject = Subject::new("combine");
    for _ in 0..60_000 {
        Case::any(random).compare(&mut subject, random);
    }
    limits(&mut subject, random);
    subject.done()
}

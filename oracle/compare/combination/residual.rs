//! The residual pass of `solve_refined`.

use super::lists::{matrix, Entries, MOST_COLUMNS, MOST_DIM};
use super::one_list::OneList;
use crate::lent::Lent;
use crate::outcome::brief;
use crate::random::Random;
use crate::report::Subject;
use plain::{refused, Refused};
use tellegen::faer::Mat;
use tellegen::sens::{regularized, residual};

#[derive(Debug)]
pub struct Case {
    pub dim: u64,
    pub columns: u64,
    pub entries: Entries,
    pub eps: f64,
    pub rhs: Vec<f64>,
    pub answer: Vec<f64>,
}

impl Case {
    /// A small case; one in four is broken.
    pub fn any(random: &mut Random) -> Self {
        let (dim, columns) = (random.below(7), random.below(5));
        let mut entries = Entries::any(random, dim);
        let broken = random.below(12);
        if broken == 0 {
            entries.spoil(random, dim);
        }
        let eps = match random.below(4) {
            0 => random.float(),
            1 => 1e-9,
            _ => random.pick(&[0.0, -0.0]),
        };
        let rhs = matrix(random, dim, columns, broken == 1);
        let answer = matrix(random, dim, columns, broken == 2);
        Case { dim, columns, entries, eps, rhs, answer }
    }

    /// A case of these sizes, with matrices of the length that they would ask for, kept below `most`.
    fn sized(random: &mut Random, dim: u64, columns: u64, most: u64) -> Self {
        let inside = Entries::any(random, dim.min(1 << 32));
        let length = dim.wrapping_mul(columns).min(most) as usize;
        let (rhs, answer) = (random.floats(length), random.floats(length));
        Case { dim, columns, entries: inside, eps: 0.5, rhs, answer }
    }

    fn fits(&self) -> bool {
        let length = (self.dim as u128) * (self.columns as u128);
        self.entries.fit(self.dim)
            && self.columns <= MOST_COLUMNS
            && self.rhs.len() as u128 == length
            && self.answer.len() as u128 == length
    }

    pub fn expected(&self) -> Result<Vec<f64>, Refused> {
        if !self.fits() {
            return refused(12, 0);
        }
        let (dim, columns) = (self.dim as usize, self.columns as usize);
        let reg = regularized(dim, &self.entries.triplets(), self.eps);
        let rhs = Mat::from_columns(dim, columns, self.rhs.clone());
        let answer = Mat::from_columns(dim, columns, self.answer.clone());
        Ok(residual(reg, &rhs, &answer).1.into_columns())
    }

    fn compare(&self, subject: &mut Subject, random: &mut Random) {
        let e = &self.entries;
        let (rows, cols, values) = (Lent::of(&e.rows), Lent::of(&e.cols), Lent::of(&e.values));
        let (rhs, answer) = (Lent::of(&self.rhs), Lent::of(&self.answer));
        let size = e.size() + self.rhs.len() + self.answer.len();
        let list = OneList { subject, size, want: self.expected() };
        let call = |out: &mut [f64]| {
            socwr::residual(
                self.dim,
                self.columns,
                rows.slice(),
                cols.slice(),
                values.slice(),
                self.eps,
                rhs.slice(),
                answer.slice(),
                out,
            )
        };
        let kept =
            || rows.untouched() && cols.untouched() && values.untouched() && rhs.untouched() && answer.untouched();
        let what = || {
            let lists = format!("rows {} cols {} values {}", brief(&e.rows), brief(&e.cols), brief(&e.values));
            format!(
                "residual dim {} columns {} eps {:?} {lists} rhs {} answer {}",
                self.dim,
                self.columns,
                self.eps,
                brief(&self.rhs),
                brief(&self.answer)
            )
        };
        list.hold(random, call, kept, what);
    }
}

/// Sizes at and past the limits.
pub const LIMITS: [(u64, u64); 18] = [
    (MOST_DIM, 1),
    (MOST_DIM, 2),
    (MOST_DIM, 0),
    (MOST_DIM + 1, 0),
    (MOST_DIM + 1, 1),
    (MOST_DIM - 1, 1),
    (0, MOST_COLUMNS),
    (0, MOST_COLUMNS + 1),
    (1, MOST_COLUMNS),
    (3, MOST_COLUMNS),
    (1, MOST_COLUMNS + 1),
    (2, MOST_COLUMNS - 1),
    (1 << 63, 2),
    (2, 1 << 63),
    (1 << 32, 1 << 32),
    (0, u64::MAX),
    (u64::MAX, 0),
    ((1 << 32) + 2, 1),
];

/// All of it; whether nothing differs.
pub fn compare() -> bool {
    let random = &mut Random::new(5);
    let mut subject = Subject::new("residual");
    for _ in 0..30_000 {
        Case::any(random).compare(&mut subject, random);
    }
    for (dim, columns) in LIMITS {
        for _ in 0..3 {
            Case::sized(random, dim, columns, 1 << 20).compare(&mut subject, random);
        }
        let mut outside = Case::sized(random, dim, columns, 1 << 20);
        outside.entries = Entries { rows: vec![0, dim as u32], cols: vec![0, 0], values: vec![1.0, 1.0] };
        outside.compare(&mut subject, random);
    }
    subject.done()
}

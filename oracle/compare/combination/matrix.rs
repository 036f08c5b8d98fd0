//! The selector matrix, as `forward_adjoint` hands it to its solve.

use super::lists::{Items, MOST_COLUMNS, MOST_DIM};
use super::one_list::OneList;
use crate::lent::Lent;
use crate::outcome::brief;
use crate::random::Random;
use crate::report::Subject;
use plain::{refused, Refused};
use std::cell::RefCell;
use tellegen::faer::Mat;
use tellegen::sens::{forward_adjoint, Mode};

pub fn expected(dim: u64, items: &Items) -> Result<Vec<f64>, Refused> {
    if !items.fit(dim) {
        return refused(12, 0);
    }
    let seen = RefCell::new(Vec::new());
    let solve = |_: &[(usize, usize, f64)], sel: Mat<f64>| {
        *seen.borrow_mut() = sel.clone().into_columns();
        Ok(sel)
    };
    let none = Mat::zeros(dim as usize, 0);
    forward_adjoint(dim as usize, &[], none, &items.map(), 1.0, Mode::Adjoint, solve).expect("an answer");
    Ok(seen.into_inner())
}

fn one(subject: &mut Subject, dim: u64, items: &Items, random: &mut Random) {
    let (starts, rows, weights) = (Lent::of(&items.starts), Lent::of(&items.rows), Lent::of(&items.weights));
    let list = OneList { subject, size: items.size() + dim.min(1 << 20) as usize, want: expected(dim, items) };
    let call = |out: &mut [f64]| socwr::selector_matrix(dim, starts.slice(), rows.slice(), weights.slice(), out);
    let kept = || starts.untouched() && rows.untouched() && weights.untouched();
    let what = || {
        format!(
            "selector_matrix dim {dim} starts {} rows {} weights {}",
            brief(&items.starts),
            brief(&items.rows),
            brief(&items.weights)
        )
    };
    list.hold(random, call, kept, what);
}

/// All of it; whether nothing differs.
pub fn compare() -> bool {
    let random = &mut Random::new(7);
    let mut subject = Subject::new("selector matrix");
    for _ in 0..25_000 {
        let dim = random.below(7);
        let mut items = Items::any(random, dim);
        if random.once_in(4) {
            items.spoil(random, dim);
        }
        one(&mut subject, dim, &items, random);
    }
    for dim in [MOST_DIM - 1, MOST_DIM, MOST_DIM + 1, 1 << 32, 1 << 63, u64::MAX] {
        let items = Items::any(random, dim.min(1 << 32));
        one(&mut subject, dim, &items, random);
        let none = Items { starts: vec![0], rows: vec![], weights: vec![] };
        one(&mut subject, dim, &none, random);
    }
    for count in [MOST_COLUMNS - 1, MOST_COLUMNS, MOST_COLUMNS + 1] {
        for dim in [1, 3] {
            one(&mut subject, dim, &Items::plain(random, count as usize, dim), random);
        }
        let none = Items { starts: vec![0; count as usize + 1], rows: vec![], weights: vec![] };
        one(&mut subject, 0, &none, random);
    }
    subject.done()
}

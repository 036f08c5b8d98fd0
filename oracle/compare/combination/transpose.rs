//! The transposed entries, as `forward_adjoint` hands them to its solve.

use super::lists::{Entries, MOST_DIM};
use crate::lent::Lent;
use crate::outcome::{answer, brief};
use crate::random::Random;
use crate::report::Subject;
use plain::{refused, Refused};
use std::cell::RefCell;
use tellegen::faer::Mat;
use tellegen::sens::{forward_adjoint, Mode};

pub fn expected(dim: u64, entries: &Entries) -> Result<Entries, Refused> {
    if !entries.fit(dim) {
        return refused(12, 0);
    }
    let seen = RefCell::new(Vec::new());
    let solve = |k: &[(usize, usize, f64)], sel: Mat<f64>| {
        *seen.borrow_mut() = k.to_vec();
        Ok(sel)
    };
    let none = Mat::zeros(dim as usize, 0);
    forward_adjoint(dim as usize, &entries.triplets(), none, &[], 1.0, Mode::Adjoint, solve).expect("an answer");
    let list = seen.into_inner();
    Ok(Entries {
        rows: list.iter().map(|e| e.0 as u32).collect(),
        cols: list.iter().map(|e| e.1 as u32).collect(),
        values: list.iter().map(|e| e.2).collect(),
    })
}

fn one(subject: &mut Subject, dim: u64, entries: &Entries, lent: [usize; 3]) {
    let (rows, cols, values) = (Lent::of(&entries.rows), Lent::of(&entries.cols), Lent::of(&entries.values));
    let (mut out_rows, mut out_cols) = (Lent::<u32>::blank(lent[0]), Lent::<u32>::blank(lent[1]));
    let mut out_values = Lent::<f64>::blank(lent[2]);
    let found = expected(dim, entries).and_then(|list| {
        let need = list.rows.len();
        if lent.iter().any(|&l| l < need) {
            refused(10, need as u64)
        } else {
            Ok(list)
        }
    });
    let want = answer(found.as_ref().map(|l| l.rows.len() as u64).map_err(|&r| r));
    let got = socwr::transpose(
        dim,
        rows.slice(),
        cols.slice(),
        values.slice(),
        out_rows.slice_mut(),
        out_cols.slice_mut(),
        out_values.slice_mut(),
    );
    let l = found.as_ref().ok();
    let right = got == want
        && rows.untouched()
        && cols.untouched()
        && values.untouched()
        && out_rows.after(l.map(|l| &l.rows[..]))
        && out_cols.after(l.map(|l| &l.cols[..]))
        && out_values.after(l.map(|l| &l.values[..]));
    let what = || {
        let lists =
            format!("rows {} cols {} values {}", brief(&entries.rows), brief(&entries.cols), brief(&entries.values));
        format!("transpose dim {dim} into {lent:?} gave {got:?}, not {want:?}; {lists}")
    };
    subject.hold(want.number, right, entries.size(), what);
}

/// Lengths to lend: exact, one short or longer.
fn lent(random: &mut Random, need: usize) -> [usize; 3] {
    [need; 3].map(|need| match random.below(6) {
        0 => need.saturating_sub(1),
        1 => need + 1 + random.below(4) as usize,
        _ => need,
    })
}

/// All of it; whether nothing differs.
pub fn compare() -> bool {
    let random = &mut Random::new(6);
    let mut subject = Subject::new("transpose");
    for _ in 0..25_000 {
        subject.case();
        let far = random.pick(&[0, MOST_DIM - 1, MOST_DIM, MOST_DIM + 1, 1 << 32, 1 << 63, u64::MAX]);
        let dim = if random.once_in(5) { far } else { random.below(7) };
        let mut entries = Entries::any(random, dim.min(1 << 32));
        if random.once_in(6) {
            entries.spoil(random, dim);
        }
        for _ in 0..2 {
            let lent = lent(random, entries.rows.len());
            one(&mut subject, dim, &entries, lent);
        }
    }
    subject.done()
}

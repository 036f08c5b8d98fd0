//! `Selector::new`: starts, rows, weights, elements.

use super::lists::MOST_COLUMNS;
use crate::items::{lengths, LentLists, Lists};
use crate::lent::Lent;
use crate::outcome::{answer, brief};
use crate::random::Random;
use crate::report::Subject;
use plain::{refused, Refused};
use tellegen::sens::Selector;

/// The lists, or why they are refused where so much is lent.
fn expected(rows: &[u32], elements: &[u32], lent: [usize; 4]) -> Result<Lists, Refused> {
    if rows.len() != elements.len() || rows.len() as u64 > MOST_COLUMNS {
        return refused(12, 0);
    }
    let wide = |list: &[u32]| list.iter().map(|&x| x as usize).collect();
    Lists::of(&Selector::new(wide(rows), wide(elements), 1.0)).into(lent)
}

fn one(subject: &mut Subject, rows: &[u32], elements: &[u32], lent: [usize; 4]) {
    let (from_rows, from_elements) = (Lent::of(rows), Lent::of(elements));
    let mut out = LentLists::blank(lent);
    let found = expected(rows, elements, lent);
    let want = answer(found.as_ref().map(|l| l.elements.len() as u64).map_err(|&r| r));
    let got = socwr::selector_new(
        from_rows.slice(),
        from_elements.slice(),
        out.starts.slice_mut(),
        out.rows.slice_mut(),
        out.weights.slice_mut(),
        out.elements.slice_mut(),
    );
    let kept = from_rows.untouched() && from_elements.untouched();
    let right = got == want && kept && out.after(found.as_ref().ok());
    let what = || {
        format!(
            "selector_new into {lent:?} gave {got:?}, not {want:?}; rows {} elements {}",
            brief(rows),
            brief(elements)
        )
    };
    subject.hold(want.number, right, rows.len() + elements.len(), what);
}

/// All of it; whether nothing differs.
pub fn compare() -> bool {
    let random = &mut Random::new(4);
    let mut subject = Subject::new("selector_new");
    for turn in 0..25_000u64 {
        subject.case();
        let items = if turn < 8 { MOST_COLUMNS as usize - 2 + turn as usize / 2 } else { random.below(9) as usize };
        let rows = random.numbers(items, 1 << 32);
        let unlike = if random.once_in(6) { random.pick(&[items + 1, items.saturating_sub(1), 0]) } else { items };
        let elements = random.numbers(unlike, 1 << 32);
        for _ in 0..2 {
            let lent = lengths(random, items);
            one(&mut subject, &rows, &elements, lent);
        }
    }
    subject.done()
}

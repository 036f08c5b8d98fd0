//! `max_abs` of lists of every small length, and of some long ones.

use crate::lent::Lent;
use crate::outcome::brief;
use crate::random::{same, Random};
use crate::report::Subject;
use tellegen::faer::Mat;
use tellegen::sens::max_abs;

/// All of it; whether nothing differs.
pub fn compare() -> bool {
    let random = &mut Random::new(3);
    let mut subject = Subject::new("max_abs");
    for turn in 0..25_000 {
        let length = if turn < 40 { turn * turn * turn } else { turn % 40 };
        let list = random.floats(length);
        let result = max_abs(&Mat::from_columns(length, 1, list.clone()));
        let lent = Lent::of(&list);
        let got = socwr::max_abs(lent.slice());
        let right = got.number == 0 && got.value == 0 && same(got.result, result) && lent.untouched();
        subject.case();
        subject.hold(0, right, length, || format!("max_abs gave {got:?}, not {result:?}; {}", brief(&list)));
    }
    subject.done()
}

//! `element_id` on every axis.

use super::asked::{codes, indices};
use super::one::One;
use crate::codes::{named, AXES};
use crate::outcome::answer;
use crate::random::Random;
use crate::report::Subject;

pub fn ids(subject: &mut Subject, one: &One, random: &mut Random) {
    subject.case();
    for code in codes(AXES.len(), random) {
        let end = named(&AXES, code).and_then(|axis| one.wanted.axis(axis)).unwrap_or(random.below(9));
        // The counts of a damaged network may be anything.
        for index in indices(end.min(1 << 17), one.most, random) {
            let want = answer(one.wanted.element_id(code, index));
            let got = socwr::element_id(one.given.net(), code, index);
            let what = || format!("element_id({code}, {index}) gave {got:?}, not {want:?}");
            one.hold(subject, want.number, got == want, what);
        }
    }
}

//! `operand_selector`: its lists and its sign.

use super::asked::codes;
use super::one::One;
use crate::codes::OPERANDS;
use crate::items::{lengths, LentLists};
use crate::outcome::answer;
use crate::random::Random;
use crate::report::Subject;

fn call(subject: &mut Subject, one: &One, code: u64, lent: [usize; 4]) {
    let found = one.wanted.selector(code, lent);
    let want = answer(found.as_ref().map(|(lists, _)| lists.elements.len() as u64).map_err(|&r| r));
    let sign = found.as_ref().map_or(0.0, |(_, sign)| *sign);
    let mut out = LentLists::blank(lent);
    let got = socwr::operand_selector(
        one.given.net(),
        code,
        out.starts.slice_mut(),
        out.rows.slice_mut(),
        out.weights.slice_mut(),
        out.elements.slice_mut(),
    );
    let answered = got.number == want.number && got.value == want.value && got.sign.to_bits() == sign.to_bits();
    let right = answered && out.after(found.as_ref().ok().map(|(lists, _)| lists));
    let what = || format!("operand_selector({code}) into {lent:?} gave {got:?}, not {want:?} with sign {sign:?}");
    one.hold(subject, want.number, right, what);
}

/// Every operand, into exactly enough and into two other lots of lengths.
pub fn selectors(subject: &mut Subject, one: &One, random: &mut Random) {
    subject.case();
    for code in codes(OPERANDS.len(), random) {
        let items = one.wanted.operand_len(code).unwrap_or(2) as usize;
        let all = [[items + 1, items, items, items], lengths(random, items), lengths(random, items), [0; 4]];
        for lent in all {
            call(subject, one, code, lent);
        }
    }
}

//! How many elements a parameter and an operand range over.

use super::asked::codes;
use super::one::One;
use crate::codes::{OPERANDS, PARAMETERS};
use crate::outcome::answer;
use crate::random::Random;
use crate::report::Subject;

pub fn parameters(subject: &mut Subject, one: &One, random: &mut Random) {
    subject.case();
    for code in codes(PARAMETERS.len(), random) {
        let want = answer(one.wanted.parameter_len(code));
        let got = socwr::parameter_len(one.given.net(), code);
        let what = || format!("parameter_len({code}) gave {got:?}, not {want:?}");
        one.hold(subject, want.number, got == want, what);
    }
}

pub fn operands(subject: &mut Subject, one: &One, random: &mut Random) {
    subject.case();
    for code in codes(OPERANDS.len(), random) {
        let want = answer(one.wanted.operand_len(code));
        let got = socwr::operand_len(one.given.net(), code);
        let what = || format!("operand_len({code}) gave {got:?}, not {want:?}");
        one.hold(subject, want.number, got == want, what);
    }
}

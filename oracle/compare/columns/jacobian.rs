//! `parameter_jacobian`, a column a call.

use super::asked::{codes, indices, other_length};
use super::one::One;
use crate::codes::PARAMETERS;
use crate::lent::Lent;
use crate::outcome::answer;
use crate::random::{same, Random, EXTREMES};
use crate::report::Subject;
use crate::solved::{Given, Solved};

/// One call with the x and z of `at`, lent as `given`.
fn call(subject: &mut Subject, one: &One, at: &Solved, given: &Given, [code, index]: [u64; 2], lent: usize) {
    let found = one.wanted.column(at, code, index, lent);
    let want = answer(found.as_ref().map(|column| column.len() as u64).map_err(|&r| r));
    let mut out = Lent::<f64>::blank(lent);
    let got = socwr::parameter_jacobian(given.net(), given.x(), given.z(), code, index, out.slice_mut());
    let right = got == want && out.after(found.as_deref().ok()) && given.untouched();
    let what = || {
        let unlike = found.as_ref().map_or(None, |column| {
            let at = column.iter().zip(out.slice()).position(|(&want, &got)| !same(want, got))?;
            Some((at, column[at], out.slice()[at]))
        });
        let asked = format!("({code}, {index}) with {} in x and {} in z into {lent}", at.x.len(), at.z.len());
        format!("parameter_jacobian{asked} gave {got:?}, not {want:?}; first unlike: {unlike:?}")
    };
    one.hold(subject, want.number, right, what);
}

/// Every parameter and index, each into exactly enough and into another length.
pub fn columns(subject: &mut Subject, one: &One, random: &mut Random) {
    subject.case();
    let dim = one.wanted.dim();
    for code in codes(PARAMETERS.len(), random) {
        let end = one.wanted.parameter_len(code).unwrap_or(0);
        for index in indices(end, one.most, random) {
            for lent in [dim, other_length(dim, random)] {
                call(subject, one, one.wanted.case, &one.given, [code, index], lent);
            }
        }
    }
}

/// An x or z of another length, with codes, indices and outputs that are wrong too.
pub fn misfits(subject: &mut Subject, one: &One, random: &mut Random) {
    let dim = one.wanted.dim();
    let mut at = one.wanted.case.clone();
    at.misfit(random);
    let given = Given::of(&at);
    for code in codes(PARAMETERS.len(), random) {
        let index = if random.once_in(4) { random.pick(&EXTREMES) } else { random.below(4) };
        let lent = if random.once_in(2) { dim } else { other_length(dim, random) };
        call(subject, one, &at, &given, [code, index], lent);
    }
}

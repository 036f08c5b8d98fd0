//! `served_unit_scale` on every pair, and on codes that name nothing.

use crate::codes::{named, OPERANDS, PARAMETERS};
use crate::random::EXTREMES;
use crate::random::{same, Random};
use crate::report::Subject;
use tellegen::sens::served_unit_scale;

/// All of it; whether nothing differs.
pub fn compare() -> bool {
    let random = &mut Random::new(2);
    let mut subject = Subject::new("unit scale");
    let codes = |count: usize| (0..count as u64 + 3).chain(EXTREMES);
    for operand in codes(OPERANDS.len()) {
        for parameter in codes(PARAMETERS.len()) {
            for turn in 0..90 {
                let base = if turn == 0 { 4.0 } else { random.float() };
                let (number, result) = match (named(&OPERANDS, operand), named(&PARAMETERS, parameter)) {
                    (Some(o), Some(p)) => (0, served_unit_scale(o, p, base)),
                    _ => (9, 0.0),
                };
                let got = socwr::unit_scale(operand, parameter, base);
                let right = got.number == number && got.value == 0 && same(got.result, result);
                let what =
                    || format!("unit_scale({operand}, {parameter}, {base:?}) gave {got:?}, not {number}, {result:?}");
                subject.case();
                subject.hold(number, right, operand.saturating_add(parameter) as usize, what);
            }
        }
    }
    subject.done()
}

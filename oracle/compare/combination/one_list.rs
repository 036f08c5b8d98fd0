//! An entry that writes one list of floats.

use super::lists::lengths;
use crate::lent::Lent;
use crate::outcome::{answer, brief};
use crate::random::Random;
use crate::report::Subject;
use plain::{refused, Refused};
use socwr::Answer;

/// Holds the answer of an entry that writes one list of floats: `want` is the list, or the refusal
/// that comes before the length of the output is looked at. Each call is made on several lengths.
pub struct OneList<'a> {
    pub subject: &'a mut Subject,
    pub size: usize,
    pub want: Result<Vec<f64>, Refused>,
}

impl OneList<'_> {
    /// `call` writes into the slice; `kept` says whether all that was only to be read is unchanged.
    pub fn hold(
        self,
        random: &mut Random,
        call: impl Fn(&mut [f64]) -> Answer,
        kept: impl Fn() -> bool,
        what: impl Fn() -> String,
    ) {
        self.subject.case();
        let need = self.want.as_ref().map_or(3, |list| list.len());
        for length in lengths(random, need) {
            let list = self.want.as_ref().map_err(|&r| r);
            let found = list.and_then(|list| if length < need { refused(10, need as u64) } else { Ok(list) });
            let mut out = Lent::<f64>::blank(length);
            let got = call(out.slice_mut());
            let want = answer(found.map(|list| list.len() as u64));
            let right = got == want && out.after(found.ok().map(|list| &list[..])) && kept();
            let tell = || {
                let (held, list) = (brief(out.slice()), self.want.as_ref().map(|l| brief(l)));
                format!("into {length} gave {got:?}, not {want:?}, and left {held}, not {list:?}; {}", what())
            };
            self.subject.hold(want.number, right, self.size, tell);
        }
    }
}

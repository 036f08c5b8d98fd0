//! A network that is lent, and what should be answered of it.

use super::lists::{lengths, shown, Lists, Outputs};
use super::wanted::Wanted;
use crate::lent::Lent;
use crate::outcome::answer;
use crate::random::Random;
use crate::records::Network;
use crate::report::Subject;
use plain::Refused;
use socwr::{Answer, Net};

pub struct Case<'a> {
    pub network: &'a Network,
    pub records: Lent<u8>,
    pub wanted: Wanted,
}

impl<'a> Case<'a> {
    pub fn of(network: &'a Network) -> Self {
        Case { network, records: Lent::of(&network.bytes), wanted: Wanted::of(network) }
    }

    pub fn net(&self) -> Net<'_> {
        Net { counts: self.network.counts, records: self.records.slice() }
    }

    /// Holds one answer, and that the records are as they were.
    pub fn hold(&self, subject: &mut Subject, number: u64, right: bool, what: impl FnOnce() -> String) {
        let untouched = self.records.untouched();
        let tell = || {
            let changed = if untouched { "" } else { ", and the records were changed" };
            format!("{}{changed}; {}", what(), self.network.describe())
        };
        subject.hold(number, right && untouched, self.network.size(), tell);
    }

    /// Holds an entry that writes lists, on several lengths; `usual` are lent where `want` is a refusal.
    /// `call` also says whether all else that it lends is unchanged.
    pub fn hold_lists(
        &self,
        subject: &mut Subject,
        random: &mut Random,
        want: Result<Lists, Refused>,
        usual: &[usize],
        call: impl Fn(&mut Outputs) -> (Answer, bool),
    ) {
        let needs = want.as_ref().map_or(usual.to_vec(), Lists::needs);
        for lent in lengths(&needs, random) {
            let fits = want.clone().and_then(|lists| lists.fit(&lent));
            let expected = answer(fits.as_ref().map(|lists| lists.floats.len() as u64).map_err(|&r| r));
            let mut out = Outputs::blank(&lent);
            let (got, kept) = call(&mut out);
            let right = got == expected && out.after(fits.as_ref().ok()) && kept;
            let what = || {
                let (held, wanted) = (out.describe(), shown(&fits));
                format!("into {lent:?} gave {got:?}, not {expected:?}, and left {held}, not {wanted}")
            };
            self.hold(subject, expected.number, right, what);
        }
    }
}

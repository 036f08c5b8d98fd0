//! One case as it is lent, with what should be answered of it.

use super::wanted::Wanted;
use crate::report::Subject;
use crate::solved::Given;

pub struct One<'a> {
    pub wanted: Wanted<'a>,
    pub given: Given<'a>,
    /// The most indices asked of an axis.
    pub most: u64,
}

impl One<'_> {
    /// Holds one answer, and that the records, x and z are as they were.
    pub fn hold(&self, subject: &mut Subject, number: u64, right: bool, what: impl FnOnce() -> String) {
        let untouched = self.given.untouched();
        let tell = || {
            let changed = if untouched { "" } else { ", and what was only to be read was changed" };
            format!("{}{changed}; {}", what(), self.wanted.case.network.describe())
        };
        subject.hold(number, right && untouched, self.wanted.case.size(), tell);
    }
}

//! Records and numbering: every answer on one network, held against the Rust.

use super::expect::{COLUMN_BLOCKS, ROW_BLOCKS};
use super::network::Network;
use super::wanted::Wanted;
use crate::lent::Lent;
use crate::outcome::answer;
use crate::random::{Random, EXTREMES};
use crate::report::Subject;
use socwr::Net;

/// The subjects of this part, and how often only the sum of the counts was wrong.
pub struct Numbering {
    sums: u64,
    check: Subject,
    sizes: Subject,
    column_numbers: Subject,
    row_numbers: Subject,
    column_names: Subject,
    row_names: Subject,
    cones: Subject,
}

/// A network that is lent, and what should be answered of it.
struct Case<'a> {
    network: &'a Network,
    records: Lent<u8>,
    wanted: Wanted,
}

impl Case<'_> {
    fn net(&self) -> Net<'_> {
        Net { counts: self.network.counts, records: self.records.slice() }
    }

    /// Holds one answer, and that the records are as they were.
    fn hold(&self, subject: &mut Subject, number: u64, right: bool, what: impl FnOnce() -> String) {
        let untouched = self.records.untouched();
        let tell = || {
            let changed = if untouched { "" } else { ", and the records were changed" };
            format!("{}{changed}; {}", what(), self.network.describe())
        };
        subject.hold(number, right && untouched, self.network.size(), tell);
    }
}

impl Numbering {
    pub fn new() -> Self {
        Numbering {
            sums: 0,
            check: Subject::new("record check"),
            sizes: Subject::new("sizes"),
            column_numbers: Subject::new("column numbers"),
            row_numbers: Subject::new("row numbers"),
            column_names: Subject::new("column names"),
            row_names: Subject::new("row names"),
            cones: Subject::new("cones"),
        }
    }

    /// Every answer on the network; where it is large, `most` names of each kind.
    pub fn compare(&mut self, network: &Network, most: usize, random: &mut Random) {
        let case = Case { network, records: Lent::of(&network.bytes), wanted: Wanted::of(network) };
        self.check(&case);
        self.sizes(&case);
        self.column_numbers(&case, most, random);
        self.row_numbers(&case, most, random);
        self.names(&case, most, random);
        self.cones(&case, random);
    }

    /// The record check alone.
    pub fn compare_check(&mut self, network: &Network) {
        self.check.case();
        let records = Lent::of(&network.bytes);
        let got = socwr::check_records(Net { counts: network.counts, records: records.slice() });
        let want = answer(plain::check(network.counts, &network.bytes).map(|()| 0));
        let what = || format!("check_records gave {got:?}, not {want:?}; {}", network.describe());
        self.check.hold(want.number, got == want && records.untouched(), network.size(), what);
    }

    fn check(&mut self, case: &Case) {
        self.check.case();
        let (want, got) = (case.wanted.check(), socwr::check_records(case.net()));
        self.sums += (want.number == 3 && want.value == case.network.counts.records()) as u64;
        case.hold(&mut self.check, want.number, got == want, || format!("check_records gave {got:?}, not {want:?}"));
    }

    fn sizes(&mut self, case: &Case) {
        self.sizes.case();
        let (want, got) = (case.wanted.sizes(), socwr::layout_new(case.net()));
        case.hold(&mut self.sizes, want.number, got == want, || format!("layout_new gave {got:?}, not {want:?}"));
    }

    fn column_numbers(&mut self, case: &Case, most: usize, random: &mut Random) {
        self.column_numbers.case();
        for (block, index, _) in asked(case, COLUMN_BLOCKS, most, random) {
            let want = case.wanted.column_number(block, index);
            let got = socwr::column_number(case.net(), block, index);
            let what = || format!("column_number({block}, {index}) gave {got:?}, not {want:?}");
            case.hold(&mut self.column_numbers, want.number, got == want, what);
        }
    }

    fn row_numbers(&mut self, case: &Case, most: usize, random: &mut Random) {
        self.row_numbers.case();
        for (block, index, place) in asked(case, ROW_BLOCKS, most, random) {
            let want = case.wanted.row_number(block, index, place);
            let got = socwr::row_number(case.net(), block, index, place);
            let what = || format!("row_number({block}, {index}, {place}) gave {got:?}, not {want:?}");
            case.hold(&mut self.row_numbers, want.number, got == want, what);
        }
    }

    fn names(&mut self, case: &Case, most: usize, random: &mut Random) {
        self.column_names.case();
        self.row_names.case();
        for rows in [false, true] {
            for number in numbers(case.wanted.names(rows).len(), most, random) {
                let want = case.wanted.name(rows, number);
                let got =
                    if rows { socwr::row_name(case.net(), number) } else { socwr::column_name(case.net(), number) };
                let subject = if rows { &mut self.row_names } else { &mut self.column_names };
                let what =
                    || format!("{}_name({number}) gave {got:?}, not {want:?}", if rows { "row" } else { "column" });
                case.hold(subject, want.number, got == want, what);
            }
        }
    }

    fn cones(&mut self, case: &Case, random: &mut Random) {
        self.cones.case();
        let need = case.wanted.cones(usize::MAX).map_or(4, |list| list.len());
        for lent in [0, 1, need - 1, need, need + 1, need + 2 + random.below(60) as usize] {
            let mut out = Lent::<u32>::blank(lent);
            let list = case.wanted.cones(lent);
            let want = answer(list.as_ref().map(|list| list.len() as u64).map_err(|&r| r));
            let got = socwr::cones(case.net(), out.slice_mut());
            let right = got == want && out.after(list.as_deref().ok());
            let what = || {
                format!("cones into {lent} gave {got:?}, not {want:?}; they hold {:?}", &out.slice()[..lent.min(20)])
            };
            case.hold(&mut self.cones, want.number, right, what);
        }
    }

    pub fn done(&self) -> bool {
        let subjects = [
            &self.check,
            &self.sizes,
            &self.column_numbers,
            &self.row_numbers,
            &self.column_names,
            &self.row_names,
            &self.cones,
        ];
        // Each prints its line.
        let right = subjects.into_iter().fold(true, |right, subject| subject.done() && right);
        println!("  of number 3 in the record check, {} for the sum of the counts", self.sums);
        right
    }
}

/// Blocks, indices and places to ask for: all, or `most` of them at random, and those past the ends.
fn asked(case: &Case, blocks: u64, most: usize, random: &mut Random) -> Vec<(u64, u64, u64)> {
    if case.wanted.found.is_err() {
        return (0..3).map(|_| (random.below(blocks + 1), random.below(4), random.below(2))).collect();
    }
    let names = case.wanted.names(blocks == ROW_BLOCKS);
    let mut list: Vec<(u64, u64, u64)> = numbers(names.len(), most, random)
        .filter_map(|at| names.get(at as usize))
        .map(|n| (n.block, n.index, n.place))
        .collect();
    for block in 0..blocks {
        past(case.network, block, random, &mut list);
    }
    let extreme = random.pick(&EXTREMES);
    list.extend([(blocks, 0, 0), (blocks + 1, extreme, extreme), (extreme, 0, 0)]);
    list
}

/// The ends of a block, and records without a name.
pub fn past(network: &Network, block: u64, random: &mut Random, list: &mut Vec<(u64, u64, u64)>) {
    let c = network.counts;
    let end = random.pick(&[c.n, c.m, c.k]);
    let last = end.saturating_sub(1);
    let extreme = random.pick(&EXTREMES);
    let place = random.pick(&[1, 3, 4, 5, 6, extreme]);
    list.extend([c.n, c.m, c.k].map(|end| (block, end, 0)));
    list.extend([(block, random.below(end + 1), random.below(8)), (block, last, place)]);
    list.extend([(block, extreme, 0), (block, random.pick(&EXTREMES), place)]);
}

/// The numbers below `end`, or `most` of them at random, and some from `end` on.
fn numbers(end: usize, most: usize, random: &mut Random) -> impl Iterator<Item = u64> {
    let end = end as u64;
    let mut list: Vec<u64> =
        if end <= most as u64 { (0..end).collect() } else { (0..most).map(|_| random.below(end)).collect() };
    list.extend([end, end.saturating_sub(1), end + 1, random.pick(&EXTREMES)]);
    list.into_iter()
}

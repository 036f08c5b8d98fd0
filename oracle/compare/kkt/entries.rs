//! The KKT entries of one case, held against the Rust, and demand 3 of what was written.

use super::places::Places;
use super::wanted::{entries, into, List};
use crate::lent::Lent;
use crate::outcome::answer;
use crate::random::{same, Random};
use crate::report::Subject;
use crate::solved::{Given, Solved};
use plain::Refused;

/// The subjects of this part; how many lists of networks with records of every kind are as long as they may be, and
/// how many places are named twice.
pub struct Kkt {
    entries: Subject,
    places: Subject,
    full: u64,
    twice: u64,
}

/// Rows, columns and values to write.
struct Out {
    rows: Lent<u32>,
    cols: Lent<u32>,
    values: Lent<f64>,
}

impl Out {
    fn blank([rows, cols, values]: [usize; 3]) -> Self {
        Out { rows: Lent::blank(rows), cols: Lent::blank(cols), values: Lent::blank(values) }
    }

    fn after(&self, want: Option<&List>) -> bool {
        self.rows.after(want.map(|l| &l.rows[..]))
            && self.cols.after(want.map(|l| &l.cols[..]))
            && self.values.after(want.map(|l| &l.values[..]))
    }

    /// The first entry that is not the wanted one.
    fn first_unlike(&self, want: Option<&List>) -> String {
        let Some(want) = want else {
            return "nothing should be written".to_owned();
        };
        let got = |i| (self.rows.slice()[i], self.cols.slice()[i], self.values.slice()[i]);
        let wanted = |i: usize| (want.rows[i], want.cols[i], want.values[i]);
        let like = |(r, c, v): (u32, u32, f64), w: (u32, u32, f64)| r == w.0 && c == w.1 && same(v, w.2);
        match (0..want.rows.len()).find(|&i| !like(got(i), wanted(i))) {
            Some(i) => format!("entry {i} is {:?}, not {:?}", got(i), wanted(i)),
            None => "the entries are right".to_owned(),
        }
    }
}

/// Lengths to lend where `need` are needed and `bound` is demand 3's: each one short, longer, empty, as long as the
/// list may ever be, and mixtures.
fn lengths(need: usize, bound: usize, random: &mut Random) -> Vec<[usize; 3]> {
    let less = need.saturating_sub(1);
    let mut all = vec![[0; 3], [bound; 3], [need + 1 + random.below(5) as usize; 3]];
    all.extend([[less, need, need], [need, less, need], [need, need, less]]);
    let enough = [need, need + 1, bound, bound + 3];
    all.push([0; 3].map(|_| random.pick(&enough)));
    all.push([0; 3].map(|_| random.pick(&[0, less, need, bound, bound + 3])));
    all
}

impl Kkt {
    pub fn new() -> Self {
        Kkt { entries: Subject::new("kkt entries"), places: Subject::new("kkt places"), full: 0, twice: 0 }
    }

    /// Every length to lend.
    pub fn compare(&mut self, case: &Solved, random: &mut Random) {
        self.entries.case();
        let found = entries(case);
        let places = Places::of(&case.network);
        let need = found.as_ref().map_or(3, |list| list.rows.len());
        let bound = places.as_ref().map_or(5, |p| p.bound() as usize);
        let exact = self.one(case, &found, [need; 3]);
        if let (Some(places), Ok(_)) = (&places, &found) {
            self.places(case, places, &exact);
        }
        for lent in lengths(need, bound.max(need), random) {
            self.one(case, &found, lent);
        }
    }

    /// The exact and the longest list alone.
    pub fn compare_large(&mut self, case: &Solved) {
        self.entries.case();
        let found = entries(case);
        let need = found.as_ref().map_or(0, |list| list.rows.len());
        let places = Places::of(&case.network).expect("accepted records");
        let out = self.one(case, &found, [need; 3]);
        self.places(case, &places, &out);
        self.one(case, &found, [places.bound() as usize; 3]);
        self.one(case, &found, [need, need, need - 1]);
    }

    fn one(&mut self, case: &Solved, found: &Result<List, Refused>, lent: [usize; 3]) -> Out {
        let given = Given::of(case);
        let mut out = Out::blank(lent);
        let wanted = into(found, lent);
        let want = answer(wanted.map(|l| l.rows.len() as u64));
        let (rows, cols, values) = (out.rows.slice_mut(), out.cols.slice_mut(), out.values.slice_mut());
        let got = socwr::kkt_entries(given.net(), given.x(), given.z(), rows, cols, values);
        let right = got == want && given.untouched() && out.after(wanted.ok());
        let tell = || {
            let (at, x, z) = (out.first_unlike(wanted.ok()), case.x.len(), case.z.len());
            let network = case.network.describe();
            format!("kkt_entries into {lent:?} gave {got:?}, not {want:?}; {at}; {x} in x, {z} in z; {network}")
        };
        self.entries.hold(want.number, right, case.size(), tell);
        out
    }

    /// Demand 3 of a list that fills what was lent.
    fn places(&mut self, case: &Solved, places: &Places, out: &Out) {
        self.places.case();
        let found = places.twice(out.rows.slice(), out.cols.slice());
        self.full += (places.every_kind() && out.rows.slice().len() as u64 == places.bound()) as u64;
        self.twice += found.as_ref().map_or(0, |&twice| twice);
        let right = found.is_ok();
        let tell = || format!("{}; {}", found.err().unwrap_or_default(), case.network.describe());
        self.places.hold(0, right, case.size(), tell);
    }

    pub fn done(&mut self) -> bool {
        let full = self.full;
        self.places.hold(0, full > 0, 0, || "no list is as long as demand 3's bound".to_owned());
        let right = [&self.entries, &self.places].into_iter().fold(true, |right, subject| subject.done() && right);
        println!("  {full} lists of networks with every kind of record are as long as demand 3's bound");
        println!("  {} places are named twice", self.twice);
        right
    }
}

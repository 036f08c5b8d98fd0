//! What the entries of records and numbering should answer: the record check's refusal, else the Rust's answer.

use super::expect::{Expected, Found};
use super::network::Network;
use plain::numbering::Name;
use plain::{refused, Refused};
use socwr::{Answer, Sizes};

pub struct Wanted {
    pub found: Result<Expected, Refused>,
}

fn answer_of(found: Found) -> Answer {
    match found {
        Ok(at) => Answer { number: 0, value: at.unwrap_or(u64::MAX) },
        Err(Refused { number, value }) => Answer { number, value },
    }
}

fn name_of(found: Result<Name, Refused>) -> socwr::Name {
    match found {
        Ok(Name { block, index, place }) => socwr::Name { number: 0, value: 0, block, index, place },
        Err(Refused { number, value }) => socwr::Name { number, value, block: 0, index: 0, place: 0 },
    }
}

impl Wanted {
    pub fn of(network: &Network) -> Self {
        let passed = plain::check(network.counts, &network.bytes);
        Wanted { found: passed.map(|()| Expected::of(network)) }
    }

    fn expected(&self) -> Result<&Expected, Refused> {
        self.found.as_ref().map_err(|&r| r)
    }

    pub fn check(&self) -> Answer {
        answer_of(self.expected().map(|_| Some(0)))
    }

    pub fn sizes(&self) -> Sizes {
        let Answer { number, value } = self.check();
        let mut sizes = Sizes { number, value, n_eq: 0, n_ineq: 0, nvar: 0, ncon: 0, t: 0, cost_columns: 0 };
        if let Ok(e) = &self.found {
            let lay = &e.layout;
            (sizes.n_eq, sizes.n_ineq) = (lay.n_eq as u64, lay.n_ineq as u64);
            (sizes.nvar, sizes.ncon) = (lay.nvar as u64, lay.ncon as u64);
            (sizes.t, sizes.cost_columns) = e.counted();
        }
        sizes
    }

    pub fn column_number(&self, block: u64, index: u64) -> Answer {
        answer_of(self.expected().and_then(|e| e.column_number(block, index)))
    }

    pub fn row_number(&self, block: u64, index: u64, place: u64) -> Answer {
        answer_of(self.expected().and_then(|e| e.row_number(block, index, place)))
    }

    /// The names of the columns or of the rows; none on a refusal.
    pub fn names(&self, rows: bool) -> &[Name] {
        self.found.as_ref().map_or(&[], |e| if rows { &e.rows } else { &e.columns })
    }

    pub fn name(&self, rows: bool, number: u64) -> socwr::Name {
        let found = self.names(rows).get(number as usize).copied();
        name_of(self.expected().and_then(|_| found.ok_or(Refused { number: 7, value: number })))
    }

    /// The cones' lengths where so many are lent.
    pub fn cones(&self, lent: usize) -> Result<Vec<u32>, Refused> {
        let lengths = self.expected()?.cones();
        let need = lengths.len();
        if lent < need {
            refused(10, need as u64)
        } else {
            Ok(lengths)
        }
    }
}

//! Sizes, numbers, names and cones from counts and records, each after the record check.

use crate::check::{check, count};
use crate::{refused, Counts, Refused, RECORD};

/// The sizes of the program.
#[derive(Clone, Copy, Debug, PartialEq, Eq)]
pub struct Sizes {
    pub n_eq: u64,
    pub n_ineq: u64,
    pub nvar: u64,
    pub ncon: u64,
    pub t: u64,
    pub cost_columns: u64,
}

/// A block, one of its records, and the place among the record's rows.
#[derive(Clone, Copy, Debug, PartialEq, Eq)]
pub struct Name {
    pub block: u64,
    pub index: u64,
    pub place: u64,
}

const COST_COLUMN: u64 = 9;
const COST: u64 = 14;
const JABR: u64 = 15;
const THERMAL: u64 = 16;

/// Records that passed the check.
#[derive(Clone, Copy)]
pub struct Network<'a> {
    c: Counts,
    records: &'a [[u8; RECORD]],
}

impl<'a> Network<'a> {
    pub fn new(c: Counts, bytes: &'a [u8]) -> Result<Self, Refused> {
        check(c, bytes)?;
        Ok(Network { c, records: bytes.as_chunks::<RECORD>().0 })
    }

    fn branches(self) -> &'a [[u8; RECORD]] {
        &self.records[self.c.n as usize..(self.c.n + self.c.m) as usize]
    }

    fn generators(self) -> &'a [[u8; RECORD]] {
        &self.records[(self.c.n + self.c.m) as usize..(self.c.n + self.c.m + self.c.k) as usize]
    }

    pub fn sizes(self) -> Sizes {
        let Counts { n, m, k, s } = self.c;
        let t = flagged(self.branches(), 1);
        let cost_columns = flagged(self.generators(), 2);
        let (n_eq, n_ineq) = (2 * n + 4 * m, 2 * n + 4 * k + 2 * m + s);
        Sizes {
            n_eq,
            n_ineq,
            nvar: 2 * k + n + 6 * m + cost_columns,
            ncon: n_eq + n_ineq + 4 * m + 6 * t,
            t,
            cost_columns,
        }
    }

    /// The lengths of the column blocks but the last.
    fn columns(self) -> [u64; 9] {
        let Counts { n, m, k, .. } = self.c;
        [k, k, n, m, m, m, m, m, m]
    }

    /// The lengths of the row blocks with one row for each record.
    fn rows(self) -> [u64; 14] {
        let Counts { n, m, k, .. } = self.c;
        [n, n, m, m, m, m, n, n, k, k, k, k, m, m]
    }

    pub fn column_number(self, block: u64, index: u64) -> Result<Option<u64>, Refused> {
        let lengths = self.columns();
        if block > COST_COLUMN {
            return refused(7, block);
        }
        let length = if block == COST_COLUMN { self.c.k } else { lengths[block as usize] };
        if index >= length {
            return refused(7, index);
        }
        let before: u64 = lengths[..block as usize].iter().sum();
        if block < COST_COLUMN {
            return Ok(Some(before + index));
        }
        let (earlier, rest) = self.generators().split_at(index as usize);
        Ok((rest[0][1] & 2 != 0).then(|| before + flagged(earlier, 2)))
    }

    pub fn row_number(self, block: u64, index: u64, place: u64) -> Result<Option<u64>, Refused> {
        let lengths = self.rows();
        let length = match block {
            0..COST => lengths[block as usize],
            COST => self.c.k,
            JABR | THERMAL => self.c.m,
            _ => return refused(7, block),
        };
        if index >= length {
            return refused(7, index);
        }
        let Some((before, places)) = self.own_rows(block, index) else {
            return Ok(None);
        };
        if place >= places {
            return refused(7, place);
        }
        let first: u64 = lengths[..(block as usize).min(14)].iter().sum();
        Ok(Some(first + before + place))
    }

    /// How many rows lie before a record's own, past the plain blocks before, and how many it has.
    fn own_rows(self, block: u64, index: u64) -> Option<(u64, u64)> {
        match block {
            COST => {
                let (earlier, rest) = self.generators().split_at(index as usize);
                (rest[0][1] & 2 != 0).then(|| (earlier.iter().map(count).sum(), count(&rest[0])))
            }
            JABR => Some((self.c.s + 4 * index, 4)),
            THERMAL => {
                let (earlier, rest) = self.branches().split_at(index as usize);
                (rest[0][1] & 1 != 0).then(|| (self.c.s + 4 * self.c.m + 6 * flagged(earlier, 1), 6))
            }
            _ => Some((index, 1)),
        }
    }

    pub fn column_name(self, number: u64) -> Result<Name, Refused> {
        let mut rest = number;
        for (block, length) in self.columns().into_iter().enumerate() {
            if rest < length {
                return Ok(Name { block: block as u64, index: rest, place: 0 });
            }
            rest -= length;
        }
        match nth_flagged(self.generators(), 2, rest) {
            Some(index) => Ok(Name { block: COST_COLUMN, index, place: 0 }),
            None => refused(7, number),
        }
    }

    pub fn row_name(self, number: u64) -> Result<Name, Refused> {
        let mut rest = number;
        for (block, length) in self.rows().into_iter().enumerate() {
            if rest < length {
                return Ok(Name { block: block as u64, index: rest, place: 0 });
            }
            rest -= length;
        }
        if rest < self.c.s {
            return Ok(self.cost_name(rest));
        }
        rest -= self.c.s;
        if rest < 4 * self.c.m {
            return Ok(Name { block: JABR, index: rest / 4, place: rest % 4 });
        }
        rest -= 4 * self.c.m;
        match nth_flagged(self.branches(), 1, rest / 6) {
            Some(index) => Ok(Name { block: THERMAL, index, place: rest % 6 }),
            None => refused(7, number),
        }
    }

    /// The generator whose segments hold the given one.
    fn cost_name(self, segment: u64) -> Name {
        let mut place = segment;
        for (index, r) in self.generators().iter().enumerate() {
            if place < count(r) {
                return Name { block: COST, index: index as u64, place };
            }
            place -= count(r);
        }
        unreachable!("the counts add up to s")
    }

    /// The count of cones.
    pub fn cones(self, lengths: &mut [u32]) -> Result<u64, Refused> {
        let sizes = self.sizes();
        let need = 2 + self.c.m + 2 * sizes.t;
        if (lengths.len() as u64) < need {
            return refused(10, need);
        }
        lengths[0] = sizes.n_eq as u32;
        lengths[1] = sizes.n_ineq as u32;
        let jabr = 2 + self.c.m as usize;
        lengths[2..jabr].fill(4);
        lengths[jabr..need as usize].fill(3);
        Ok(need)
    }
}

fn flagged(records: &[[u8; RECORD]], flag: u8) -> u64 {
    records.iter().filter(|r| r[1] & flag != 0).count() as u64
}

fn nth_flagged(records: &[[u8; RECORD]], flag: u8, nth: u64) -> Option<u64> {
    let mut with = records.iter().enumerate().filter(|(_, r)| r[1] & flag != 0);
    with.nth(nth as usize).map(|(index, _)| index as u64)
}

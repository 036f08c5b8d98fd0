//! Demand 3 on one list of entries: its bound, its places, and how often each is named.

use crate::records::Network;
use plain::numbering;
use plain::RECORD;

const W: u64 = 2;
const JABR: u64 = 15;

/// An accepted network, numbered as document 01 has it.
pub struct Places<'a> {
    network: &'a Network,
    numbered: numbering::Network<'a>,
}

impl<'a> Places<'a> {
    /// None where the records are turned away.
    pub fn of(network: &'a Network) -> Option<Self> {
        let numbered = numbering::Network::new(network.counts, &network.bytes).ok()?;
        Some(Places { network, numbered })
    }

    /// The most entries that there may be.
    pub fn bound(&self) -> u64 {
        let c = self.network.counts;
        10 * c.n + 17 * c.k + 82 * c.m + 5 * c.s + 26 * self.numbered.sizes().t
    }

    /// Whether no term of the bound is 0.
    pub fn every_kind(&self) -> bool {
        let c = self.network.counts;
        [c.n, c.m, c.k, c.s, self.numbered.sizes().t].iter().all(|&count| count > 0)
    }

    /// The two ends of a branch.
    fn ends(&self, branch: u64) -> [u64; 2] {
        let at = RECORD * (self.network.counts.n + branch) as usize;
        let number = |at: usize| u32::from_le_bytes(self.network.bytes[at..at + 4].try_into().expect("four bytes"));
        [number(at + 8) as u64, number(at + 12) as u64]
    }

    /// The bus columns of a branch in the first and the last row of its four-row cone.
    fn may_be_twice(&self, row: u64, col: u64) -> bool {
        let Some(row) = row.checked_sub(self.numbered.sizes().nvar) else {
            return false;
        };
        let (Ok(row), Ok(col)) = (self.numbered.row_name(row), self.numbered.column_name(col)) else {
            return false;
        };
        let place = row.block == JABR && (row.place == 0 || row.place == 3);
        place && col.block == W && self.ends(row.index).contains(&col.index)
    }

    /// What breaks demand 3, or how many places are named twice.
    pub fn twice(&self, rows: &[u32], cols: &[u32]) -> Result<u64, String> {
        let sizes = self.numbered.sizes();
        let dim = sizes.nvar + sizes.ncon;
        if rows.len() as u64 > self.bound() {
            return Err(format!("{} entries, more than {}", rows.len(), self.bound()));
        }
        let mut all: Vec<(u64, u64)> = rows.iter().zip(cols).map(|(&r, &c)| (r as u64, c as u64)).collect();
        if let Some(place) = all.iter().find(|(r, c)| *r >= dim || *c >= dim) {
            return Err(format!("{place:?} lies outside {dim}"));
        }
        all.sort_unstable();
        let mut twice = 0;
        for same in all.chunk_by(|a, b| a == b).filter(|same| same.len() > 1) {
            let (row, col) = same[0];
            if same.len() > 2 || !self.may_be_twice(row, col) {
                return Err(format!("({row}, {col}) is named {} times", same.len()));
            }
            twice += 1;
        }
        Ok(twice)
    }
}

//! A selector as lists: starts, rows, weights, elements.

use crate::lent::Lent;
use crate::random::Random;
use plain::{refused, Refused};
use tellegen::sens::Selector;

pub struct Lists {
    pub starts: Vec<u32>,
    pub rows: Vec<u32>,
    pub weights: Vec<f64>,
    pub elements: Vec<u32>,
}

impl Lists {
    pub fn of(made: &Selector) -> Self {
        let mut starts = vec![0];
        for item in &made.map {
            starts.push(starts[starts.len() - 1] + item.len() as u32);
        }
        let all: Vec<(usize, f64)> = made.map.concat();
        Lists {
            starts,
            rows: all.iter().map(|e| e.0 as u32).collect(),
            weights: all.iter().map(|e| e.1).collect(),
            elements: made.elements.iter().map(|&x| x as u32).collect(),
        }
    }

    /// The lists where so much is lent of each: number 10 for the first that is short.
    pub fn into(self, lent: [usize; 4]) -> Result<Self, Refused> {
        let needs = [self.starts.len(), self.rows.len(), self.weights.len(), self.elements.len()];
        match lent.into_iter().zip(needs).find(|(lent, need)| lent < need) {
            Some((_, need)) => refused(10, need as u64),
            None => Ok(self),
        }
    }
}

/// The four lists as they are lent.
pub struct LentLists {
    pub starts: Lent<u32>,
    pub rows: Lent<u32>,
    pub weights: Lent<f64>,
    pub elements: Lent<u32>,
}

impl LentLists {
    pub fn blank([starts, rows, weights, elements]: [usize; 4]) -> Self {
        LentLists {
            starts: Lent::blank(starts),
            rows: Lent::blank(rows),
            weights: Lent::blank(weights),
            elements: Lent::blank(elements),
        }
    }

    /// Written on an answer, left alone on a refusal.
    pub fn after(&self, want: Option<&Lists>) -> bool {
        self.starts.after(want.map(|l| &l.starts[..]))
            && self.rows.after(want.map(|l| &l.rows[..]))
            && self.weights.after(want.map(|l| &l.weights[..]))
            && self.elements.after(want.map(|l| &l.elements[..]))
    }
}

/// Lengths to lend: each of the four exact, one short, longer or empty.
pub fn lengths(random: &mut Random, items: usize) -> [usize; 4] {
    let exact = random.once_in(2);
    [items + 1, items, items, items].map(|need| match random.below(8) {
        0 if !exact => need.saturating_sub(1),
        1 if !exact => random.below(need as u64 + 1) as usize,
        2 => need + 1 + random.below(4) as usize,
        _ => need,
    })
}

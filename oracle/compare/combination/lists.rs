//! Entries, selectors and matrices that combination takes, good and broken.

use crate::random::Random;

pub const MOST_DIM: u64 = 294_912;
pub const MOST_COLUMNS: u64 = 65_536;

/// A matrix of entries: row, column, value.
#[derive(Clone, Debug, Default)]
pub struct Entries {
    pub rows: Vec<u32>,
    pub cols: Vec<u32>,
    pub values: Vec<f64>,
}

impl Entries {
    /// Up to twelve entries; places recur.
    pub fn any(random: &mut Random, dim: u64) -> Self {
        let count = if dim == 0 { 0 } else { random.below(13) as usize };
        let near = if random.once_in(2) { dim.min(2) } else { dim };
        Entries { rows: random.numbers(count, near), cols: random.numbers(count, dim), values: random.floats(count) }
    }

    /// A row or column outside dim, or lists of unequal length.
    pub fn spoil(&mut self, random: &mut Random, dim: u64) {
        let outside = random.pick(&[dim as u32, dim as u32 + 1, u32::MAX]);
        match random.below(6) {
            0 => self.rows.push(0),
            1 => self.cols.push(0),
            2 => self.values.push(1.0),
            3 => drop(self.values.pop()),
            4 => put(&mut self.rows, outside, random),
            _ => put(&mut self.cols, outside, random),
        }
    }

    pub fn fit(&self, dim: u64) -> bool {
        let inside = |list: &[u32]| list.iter().all(|&x| (x as u64) < dim);
        dim <= MOST_DIM
            && self.rows.len() == self.cols.len()
            && self.rows.len() == self.values.len()
            && inside(&self.rows)
            && inside(&self.cols)
    }

    pub fn triplets(&self) -> Vec<(usize, usize, f64)> {
        (0..self.rows.len()).map(|i| (self.rows[i] as usize, self.cols[i] as usize, self.values[i])).collect()
    }

    pub fn size(&self) -> usize {
        self.rows.len() + self.cols.len() + self.values.len()
    }
}

fn put(list: &mut [u32], value: u32, random: &mut Random) {
    let at = random.below(list.len().max(1) as u64) as usize;
    if let Some(place) = list.get_mut(at) {
        *place = value;
    }
}

/// Items, each with some rows and weights.
#[derive(Clone, Debug)]
pub struct Items {
    pub starts: Vec<u32>,
    pub rows: Vec<u32>,
    pub weights: Vec<f64>,
}

impl Items {
    /// Up to five items of up to three rows, some without any.
    pub fn any(random: &mut Random, dim: u64) -> Self {
        let mut starts = vec![0];
        for _ in 0..random.below(6) {
            let rows = if dim == 0 || random.once_in(4) { 0 } else { 1 + random.below(3) as u32 };
            starts.push(starts[starts.len() - 1] + rows);
        }
        let count = starts[starts.len() - 1] as usize;
        Items { starts, rows: random.numbers(count, dim), weights: random.floats(count) }
    }

    /// So many items with one row each.
    pub fn plain(random: &mut Random, items: usize, dim: u64) -> Self {
        Items { starts: (0..=items as u32).collect(), rows: random.numbers(items, dim), weights: random.floats(items) }
    }

    /// Broken starts, unequal lists, or a row outside dim.
    pub fn spoil(&mut self, random: &mut Random, dim: u64) {
        let last = self.starts.len() - 1;
        match random.below(10) {
            0 => self.starts.clear(),
            1 => self.starts[0] += 1,
            2 => self.starts[last] += 1,
            3 => self.starts[last] = self.starts[last].wrapping_sub(1),
            4 => self.starts.push(self.starts[last] + 1),
            5 => self.starts.insert(last, self.starts[last] + 1),
            6 => self.starts.swap(0, last),
            7 => self.weights.push(1.0),
            8 => drop(self.rows.pop()),
            _ => put(&mut self.rows, random.pick(&[dim as u32, u32::MAX]), random),
        }
    }

    pub fn fit(&self, dim: u64) -> bool {
        let Some(&last) = self.starts.last() else {
            return false;
        };
        dim <= MOST_DIM
            && self.starts.len() as u64 - 1 <= MOST_COLUMNS
            && self.starts[0] == 0
            && self.starts.windows(2).all(|w| w[0] <= w[1])
            && last as usize == self.rows.len()
            && self.rows.len() == self.weights.len()
            && self.rows.iter().all(|&r| (r as u64) < dim)
    }

    /// How many items, of starts that fit.
    pub fn count(&self) -> usize {
        self.starts.len() - 1
    }

    /// The Rust's `op_map`.
    pub fn map(&self) -> Vec<Vec<(usize, f64)>> {
        let item =
            |w: &[u32]| (w[0] as usize..w[1] as usize).map(|j| (self.rows[j] as usize, self.weights[j])).collect();
        self.starts.windows(2).map(item).collect()
    }

    pub fn size(&self) -> usize {
        self.starts.len() + self.rows.len() + self.weights.len()
    }
}

/// A matrix of dim rows; broken ones have another length.
pub fn matrix(random: &mut Random, dim: u64, columns: u64, broken: bool) -> Vec<f64> {
    let length = (dim * columns) as usize;
    let wrong = random.pick(&[length + 1, length.saturating_sub(1), 0, length + dim as usize]);
    random.floats(if broken { wrong } else { length })
}

/// Lengths to lend where `need` are needed: exact, one short, longer.
pub fn lengths(random: &mut Random, need: usize) -> Vec<usize> {
    let mut all = vec![need, need + 1 + random.below(5) as usize];
    if need > 0 {
        all.extend([need - 1, random.below(need as u64) as usize]);
    }
    all
}

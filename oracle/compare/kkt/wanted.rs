//! The list of entries that `ConicKkt::new` makes, or what turns it away.

use crate::solved::Solved;
use plain::{refused, Refused};
use tellegen::sens::Differentiable;

/// Rows, columns and values.
#[derive(Default)]
pub struct List {
    pub rows: Vec<u32>,
    pub cols: Vec<u32>,
    pub values: Vec<f64>,
}

/// The entries of a network at x and z.
pub fn entries(case: &Solved) -> Result<List, Refused> {
    case.system(|kkt| {
        let all = kkt.jacobian();
        List {
            rows: all.iter().map(|e| e.0 as u32).collect(),
            cols: all.iter().map(|e| e.1 as u32).collect(),
            values: all.iter().map(|e| e.2).collect(),
        }
    })
}

/// The same where so many rows, columns and values are lent.
pub fn into(found: &Result<List, Refused>, lent: [usize; 3]) -> Result<&List, Refused> {
    let list = found.as_ref().map_err(|&r| r)?;
    let need = list.rows.len();
    if lent.iter().any(|&length| length < need) {
        refused(10, need as u64)
    } else {
        Ok(list)
    }
}

//! What the Rust's system answers of lengths, columns, selectors and ids, with document 01's refusals in their order.

use crate::codes::{named, AXES, OPERANDS, PARAMETERS};
use crate::items::Lists;
use crate::solved::Solved;
use plain::{refused, Refused};
use tellegen::sens::{Axis, ConicKkt, Differentiable, ElementId, SensError};

/// What SOCWR lacks.
const LACKS: Refused = Refused { number: 9, value: 0 };

/// The system of a case, or the cause that the record check found.
pub struct Wanted<'a> {
    pub case: &'a Solved,
    pub kkt: Result<&'a ConicKkt<'a>, Refused>,
}

/// The id in the Rust's error: the second word.
fn piecewise<T>(error: SensError) -> Result<T, Refused> {
    let text = match error {
        SensError::InvalidInput(text) if text.starts_with("generator ") => text,
        other => panic!("the Rust says {other:?}"),
    };
    let id = text.split(' ').nth(1).and_then(|id| id.parse().ok());
    refused(8, id.expect("an id"))
}

impl Wanted<'_> {
    pub fn parameter_len(&self, code: u64) -> Result<u64, Refused> {
        let kkt = self.kkt?;
        let length = kkt.parameter_len(named(&PARAMETERS, code).ok_or(LACKS)?);
        Ok(length.ok_or(LACKS)? as u64)
    }

    pub fn operand_len(&self, code: u64) -> Result<u64, Refused> {
        let kkt = self.kkt?;
        let length = kkt.operand_len(named(&OPERANDS, code).ok_or(LACKS)?);
        Ok(length.ok_or(LACKS)? as u64)
    }

    /// The length of a column; some length where there is none.
    pub fn dim(&self) -> usize {
        self.kkt.map_or(3, |kkt| kkt.dim())
    }

    /// A column, where `at` has the x and z that are handed over and so many places are lent.
    pub fn column(&self, at: &Solved, code: u64, index: u64, lent: usize) -> Result<Vec<f64>, Refused> {
        let kkt = self.kkt?;
        if at.x.len() != self.case.x.len() {
            return refused(6, 0);
        }
        if at.z.len() != self.case.z.len() {
            return refused(6, 1);
        }
        if index >= self.parameter_len(code)? {
            return refused(7, index);
        }
        let made = kkt.parameter_jacobian(PARAMETERS[code as usize], &[index as usize]).or_else(piecewise)?;
        if lent < made.nrows() {
            return refused(10, made.nrows() as u64);
        }
        Ok(made.into_columns())
    }

    /// A selector's lists and its sign, where so many places of each list are lent.
    pub fn selector(&self, code: u64, lent: [usize; 4]) -> Result<(Lists, f64), Refused> {
        let kkt = self.kkt?;
        let made = kkt.operand_selector(named(&OPERANDS, code).ok_or(LACKS)?).map_err(|_| LACKS)?;
        Ok((Lists::of(&made).into(lent)?, made.sign))
    }

    /// The count of an axis' elements; None for the constraints, which are not the network's.
    pub fn axis(&self, axis: Axis) -> Option<u64> {
        let c = self.case.network.counts;
        match axis {
            Axis::Bus => Some(c.n),
            Axis::Branch => Some(c.m),
            Axis::Generator => Some(c.k),
            _ => None,
        }
    }

    pub fn element_id(&self, code: u64, index: u64) -> Result<u64, Refused> {
        let kkt = self.kkt?;
        let Some(axis) = named(&AXES, code) else {
            return refused(7, code);
        };
        if self.axis(axis).is_some_and(|end| index >= end) {
            return refused(7, index);
        }
        match kkt.element_id(axis, index as usize) {
            ElementId::Bus(id) | ElementId::Branch(id) | ElementId::Generator(id) | ElementId::Constraint(id) => {
                Ok(id as u64)
            }
            other => panic!("the Rust says {other:?}"),
        }
    }
}

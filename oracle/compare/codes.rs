//! Operands, parameters and axes by their codes.

use tellegen::sens::Bound::{Max, Min};
use tellegen::sens::Power::{Active, Reactive};
use tellegen::sens::{Axis, CostTerm, End, Operand, Parameter, TapKind, VoltageKind, GB};

pub const OPERANDS: [Operand; 13] = [
    Operand::Price(Active),
    Operand::Price(Reactive),
    Operand::Dispatch(Active),
    Operand::Dispatch(Reactive),
    Operand::Flow { power: Active, end: End::From },
    Operand::Flow { power: Active, end: End::To },
    Operand::Flow { power: Reactive, end: End::From },
    Operand::Flow { power: Reactive, end: End::To },
    Operand::Voltage(VoltageKind::Magnitude),
    Operand::Voltage(VoltageKind::Angle),
    Operand::Voltage(VoltageKind::Squared),
    Operand::Voltage(VoltageKind::ProductReal),
    Operand::Voltage(VoltageKind::ProductImag),
];

pub const PARAMETERS: [Parameter; 19] = [
    Parameter::Demand(Active),
    Parameter::Demand(Reactive),
    Parameter::Cost(CostTerm::Quadratic),
    Parameter::Cost(CostTerm::Linear),
    Parameter::LineLimit,
    Parameter::SeriesAdmittance(GB::Conductance),
    Parameter::SeriesAdmittance(GB::Susceptance),
    Parameter::ShuntAdmittance(GB::Conductance),
    Parameter::ShuntAdmittance(GB::Susceptance),
    Parameter::VoltageBound(Min),
    Parameter::VoltageBound(Max),
    Parameter::GenBound { power: Active, bound: Min },
    Parameter::GenBound { power: Active, bound: Max },
    Parameter::GenBound { power: Reactive, bound: Min },
    Parameter::GenBound { power: Reactive, bound: Max },
    Parameter::Transformer(TapKind::Ratio),
    Parameter::Transformer(TapKind::PhaseShift),
    Parameter::Switching,
    Parameter::ConstraintLimit,
];

pub const AXES: [Axis; 4] = [Axis::Bus, Axis::Branch, Axis::Generator, Axis::Constraint];

/// What a code names in a list.
pub fn named<T: Copy>(list: &[T], code: u64) -> Option<T> {
    list.get(usize::try_from(code).ok()?).copied()
}

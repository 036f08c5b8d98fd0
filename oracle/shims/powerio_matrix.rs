//! Stands in for the types of powerio_matrix that the source names.

/// `Other` stands for every further objective.
#[derive(Clone, Copy, Debug, PartialEq, Eq)]
pub enum PreparedObjective {
    Feasibility,
    NetworkGeneratorCost,
    Other,
}

#[derive(Clone, Debug)]
pub struct AnalysisBranchSource;

#[derive(Clone, Debug)]
pub struct PiecewiseLinearCost {
    pub power: Vec<f64>,
    pub value: Vec<f64>,
}

//! The root of the copy of the source: `problem`, `sens` and `model` are made by oracle/build, the
//! rest stands in for modules that the source names and that are not ported.
#![allow(dead_code, unused_imports)]

pub mod model;
pub mod problem;
pub mod records;
pub mod sens;

pub use clarabel;
pub use faer;
pub use powerio_matrix;

pub mod api {
    #[derive(Clone, Debug)]
    pub struct SolveDiagnostic;
}

pub mod formulation {
    pub trait Formulation {}

    pub struct SocWr;

    impl SocWr {
        pub fn new() -> Self {
            SocWr
        }
    }

    impl Formulation for SocWr {}
}

pub mod solve {
    use crate::problem::OpfProgram;

    #[derive(Clone, Debug)]
    pub struct SolveIteration;

    /// What a solver hands back.
    #[derive(Clone, Debug)]
    pub struct RawSolution {
        pub x: Vec<f64>,
        pub z: Vec<f64>,
        pub objective: f64,
        pub iterations: Vec<SolveIteration>,
    }

    pub fn run(_: &OpfProgram, _: Option<()>) -> Result<RawSolution, String> {
        Err("no solver here".to_owned())
    }
}

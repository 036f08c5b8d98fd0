//! The module `model`: the copied parts, and what their types name.

pub mod ac;
pub mod angles;
pub mod cost;

pub use ac::AcNetwork;
pub use cost::PiecewiseCost;

pub struct DcNetwork;

pub mod load_voltage {
    #[derive(Clone, Debug)]
    pub struct LoadTerm;
}

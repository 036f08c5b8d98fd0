//! The entries of the KKT matrix.

mod entries;
mod ground;
mod keep;
mod places;
mod wanted;

pub use ground::compare;
pub use keep::write as keep;

//! Program and reading.

mod case;
mod cases;
mod ground;
mod keep;
mod lists;
mod matrices;
mod reading;
mod wanted;

pub use ground::compare;
pub use keep::write as keep;

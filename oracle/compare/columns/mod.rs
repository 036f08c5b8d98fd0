//! Columns by parameter, selectors of operands, lengths and ids.

mod asked;
mod ground;
mod ids;
mod jacobian;
mod keep;
mod lengths;
mod one;
mod selector;
mod wanted;

pub use ground::compare;
pub use keep::write as keep;

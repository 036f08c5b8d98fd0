//! Records and numbering.

pub mod damage;
mod expect;
mod ground;
mod keep;
mod network;
mod numbering;
pub mod shapes;
mod wanted;

pub use ground::compare;
pub use keep::write as keep;
pub use network::{Branch, Generator, Network, Shape};

//! Interface and combination.

mod combine;
mod keep;
mod largest;
mod lists;
mod matrix;
mod one_list;
mod residual;
mod scale;
mod selector;
mod transpose;

pub use keep::write as keep;

/// Its subjects.
pub const PARTS: [crate::Part; 7] = [
    scale::compare,
    selector::compare,
    largest::compare,
    residual::compare,
    transpose::compare,
    matrix::compare,
    combine::compare,
];

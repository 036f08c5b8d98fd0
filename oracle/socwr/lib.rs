//! The C entries of the static library, on slices. Each is inlined, so that a program links only those it calls.

mod declared;

use declared::*;
pub use declared::{Answer, Name, Scalar, Selector, Sizes};
use plain::Counts;

/// A network as it is handed over.
#[derive(Clone, Copy)]
pub struct Net<'a> {
    pub counts: Counts,
    pub records: &'a [u8],
}

/// Calls an entry whose first arguments are a network.
macro_rules! on {
    ($f:ident, $net:expr $(, $more:expr)*) => {{
        let Net { counts: Counts { n, m, k, s }, records } = $net;
        unsafe { $f(n, m, k, s, records.as_ptr(), records.len() as u64 $(, $more)*) }
    }};
}

#[inline]
pub fn check_records(net: Net) -> Answer {
    on!(socwr_check_records, net)
}

#[inline]
pub fn layout_new(net: Net) -> Sizes {
    on!(socwr_layout_new, net)
}

#[inline]
pub fn column_number(net: Net, block: u64, index: u64) -> Answer {
    on!(socwr_column_number, net, block, index)
}

#[inline]
pub fn row_number(net: Net, block: u64, index: u64, place: u64) -> Answer {
    on!(socwr_row_number, net, block, index, place)
}

#[inline]
pub fn column_name(net: Net, number: u64) -> Name {
    on!(socwr_column_name, net, number)
}

#[inline]
pub fn row_name(net: Net, number: u64) -> Name {
    on!(socwr_row_name, net, number)
}

#[inline]
pub fn cones(net: Net, lengths: &mut [u32]) -> Answer {
    on!(socwr_cones, net, lengths.as_mut_ptr(), lengths.len() as u64)
}

#[inline]
pub fn unit_scale(operand: u64, parameter: u64, base: f64) -> Scalar {
    unsafe { socwr_unit_scale(operand, parameter, base) }
}

#[inline]
pub fn max_abs(matrix: &[f64]) -> Scalar {
    unsafe { socwr_max_abs(matrix.as_ptr(), matrix.len() as u64) }
}

/// Expands to a call in which a slice is a pointer and a length.
macro_rules! lent {
    ($f:ident ( $($plain:expr),* ; $($read:ident),* ; $($float:expr),* ; $($read2:ident),* ; $($write:ident),* )) => {
        unsafe {
            $f($($plain,)* $($read.as_ptr(), $read.len() as u64,)* $($float,)*
               $($read2.as_ptr(), $read2.len() as u64,)* $($write.as_mut_ptr(), $write.len() as u64),*)
        }
    };
}

#[inline]
pub fn selector_new(
    from_rows: &[u32],
    from_elements: &[u32],
    starts: &mut [u32],
    rows: &mut [u32],
    weights: &mut [f64],
    elements: &mut [u32],
) -> Answer {
    lent!(socwr_selector_new(; from_rows, from_elements ; ; ; starts, rows, weights, elements))
}

#[inline]
pub fn residual(
    dim: u64,
    columns: u64,
    rows: &[u32],
    cols: &[u32],
    values: &[f64],
    eps: f64,
    rhs: &[f64],
    answer: &[f64],
    out: &mut [f64],
) -> Answer {
    lent!(socwr_residual(dim, columns ; rows, cols, values ; eps ; rhs, answer ; out))
}

#[inline]
pub fn transpose(
    dim: u64,
    rows: &[u32],
    cols: &[u32],
    values: &[f64],
    out_rows: &mut [u32],
    out_cols: &mut [u32],
    out_values: &mut [f64],
) -> Answer {
    lent!(socwr_transpose(dim ; rows, cols, values ; ; ; out_rows, out_cols, out_values))
}

#[inline]
pub fn selector_matrix(dim: u64, starts: &[u32], rows: &[u32], weights: &[f64], out: &mut [f64]) -> Answer {
    lent!(socwr_selector_matrix(dim ; starts, rows, weights ; ; ; out))
}

#[inline]
pub fn combine(
    mode: u64,
    dim: u64,
    columns: u64,
    starts: &[u32],
    rows: &[u32],
    weights: &[f64],
    sign: f64,
    rhs: &[f64],
    solution: &[f64],
    out: &mut [f64],
) -> Answer {
    lent!(socwr_combine(mode, dim, columns ; starts, rows, weights ; sign ; rhs, solution ; out))
}

/// P by columns; A likewise.
#[inline]
pub fn program_p(net: Net, starts: &mut [u32], rows: &mut [u32], values: &mut [f64]) -> Answer {
    let (s, r, v) = (starts.len() as u64, rows.len() as u64, values.len() as u64);
    on!(socwr_program_p, net, starts.as_mut_ptr(), s, rows.as_mut_ptr(), r, values.as_mut_ptr(), v)
}

#[inline]
pub fn program_a(net: Net, starts: &mut [u32], rows: &mut [u32], values: &mut [f64]) -> Answer {
    let (s, r, v) = (starts.len() as u64, rows.len() as u64, values.len() as u64);
    on!(socwr_program_a, net, starts.as_mut_ptr(), s, rows.as_mut_ptr(), r, values.as_mut_ptr(), v)
}

#[inline]
pub fn program_q(net: Net, q: &mut [f64]) -> Answer {
    on!(socwr_program_q, net, q.as_mut_ptr(), q.len() as u64)
}

#[inline]
pub fn program_b(net: Net, b: &mut [f64]) -> Answer {
    on!(socwr_program_b, net, b.as_mut_ptr(), b.len() as u64)
}

#[inline]
pub fn reading_check(net: Net, x: &[f64], z: &[f64]) -> Answer {
    on!(socwr_reading_check, net, x.as_ptr(), x.len() as u64, z.as_ptr(), z.len() as u64)
}

#[inline]
pub fn prices(net: Net, z: &[f64], prices: &mut [f64]) -> Answer {
    on!(socwr_prices, net, z.as_ptr(), z.len() as u64, prices.as_mut_ptr(), prices.len() as u64)
}

#[inline]
pub fn objective(net: Net, objective: u64, x: &[f64], solver: f64) -> Scalar {
    on!(socwr_objective, net, objective, x.as_ptr(), x.len() as u64, solver)
}

/// Calls an entry on a network that takes slices: those to read, then numbers, then those to write.
macro_rules! lent_on {
    ($f:ident ( $net:expr ; $($read:ident),* ; $($plain:expr),* ; $($write:ident),* )) => {
        on!($f, $net $(, $read.as_ptr(), $read.len() as u64)* $(, $plain)* $(, $write.as_mut_ptr(), $write.len() as u64)*)
    };
}

#[inline]
pub fn kkt_entries(net: Net, x: &[f64], z: &[f64], rows: &mut [u32], cols: &mut [u32], values: &mut [f64]) -> Answer {
    lent_on!(socwr_kkt_entries(net ; x, z ; ; rows, cols, values))
}

#[inline]
pub fn parameter_len(net: Net, parameter: u64) -> Answer {
    on!(socwr_parameter_len, net, parameter)
}

#[inline]
pub fn operand_len(net: Net, operand: u64) -> Answer {
    on!(socwr_operand_len, net, operand)
}

#[inline]
pub fn parameter_jacobian(net: Net, x: &[f64], z: &[f64], parameter: u64, index: u64, column: &mut [f64]) -> Answer {
    lent_on!(socwr_parameter_jacobian(net ; x, z ; parameter, index ; column))
}

#[inline]
pub fn operand_selector(
    net: Net,
    operand: u64,
    starts: &mut [u32],
    rows: &mut [u32],
    weights: &mut [f64],
    elements: &mut [u32],
) -> Selector {
    lent_on!(socwr_operand_selector(net ; ; operand ; starts, rows, weights, elements))
}

#[inline]
pub fn element_id(net: Net, axis: u64, index: u64) -> Answer {
    on!(socwr_element_id, net, axis, index)
}

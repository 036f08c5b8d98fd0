//! The declarations of include/socwr.h.

#[repr(C)]
#[derive(Clone, Copy, Debug, PartialEq, Eq)]
pub struct Answer {
    pub number: u64,
    pub value: u64,
}

#[repr(C)]
#[derive(Clone, Copy, Debug)]
pub struct Scalar {
    pub number: u64,
    pub value: u64,
    pub result: f64,
}

#[repr(C)]
#[derive(Clone, Copy, Debug, PartialEq, Eq)]
pub struct Sizes {
    pub number: u64,
    pub value: u64,
    pub n_eq: u64,
    pub n_ineq: u64,
    pub nvar: u64,
    pub ncon: u64,
    pub t: u64,
    pub cost_columns: u64,
}

#[repr(C)]
#[derive(Clone, Copy, Debug, PartialEq, Eq)]
pub struct Name {
    pub number: u64,
    pub value: u64,
    pub block: u64,
    pub index: u64,
    pub place: u64,
}

#[repr(C)]
#[derive(Clone, Copy, Debug)]
pub struct Selector {
    pub number: u64,
    pub value: u64,
    pub sign: f64,
}

type U8s = *const u8;
type U32s = *const u32;
type F64s = *const f64;

#[rustfmt::skip]
extern "C" {
    pub fn socwr_check_records(n: u64, m: u64, k: u64, s: u64, records: U8s, records_len: u64) -> Answer;
    pub fn socwr_layout_new(n: u64, m: u64, k: u64, s: u64, records: U8s, records_len: u64) -> Sizes;
    pub fn socwr_column_number(n: u64, m: u64, k: u64, s: u64, records: U8s, records_len: u64, block: u64, index: u64) -> Answer;
    pub fn socwr_row_number(n: u64, m: u64, k: u64, s: u64, records: U8s, records_len: u64, block: u64, index: u64, place: u64) -> Answer;
    pub fn socwr_column_name(n: u64, m: u64, k: u64, s: u64, records: U8s, records_len: u64, number: u64) -> Name;
    pub fn socwr_row_name(n: u64, m: u64, k: u64, s: u64, records: U8s, records_len: u64, number: u64) -> Name;
    pub fn socwr_cones(n: u64, m: u64, k: u64, s: u64, records: U8s, records_len: u64, lengths: *mut u32, lengths_len: u64) -> Answer;
    pub fn socwr_unit_scale(operand: u64, parameter: u64, base: f64) -> Scalar;
    pub fn socwr_max_abs(matrix: F64s, matrix_len: u64) -> Scalar;
    pub fn socwr_selector_new(
        from_rows: U32s, from_rows_len: u64, from_elements: U32s, from_elements_len: u64,
        starts: *mut u32, starts_len: u64, rows: *mut u32, rows_len: u64,
        weights: *mut f64, weights_len: u64, elements: *mut u32, elements_len: u64,
    ) -> Answer;
    pub fn socwr_residual(
        dim: u64, columns: u64, rows: U32s, rows_len: u64, cols: U32s, cols_len: u64, values: F64s, values_len: u64,
        eps: f64, rhs: F64s, rhs_len: u64, answer: F64s, answer_len: u64, out: *mut f64, out_len: u64,
    ) -> Answer;
    pub fn socwr_transpose(
        dim: u64, rows: U32s, rows_len: u64, cols: U32s, cols_len: u64, values: F64s, values_len: u64,
        out_rows: *mut u32, out_rows_len: u64, out_cols: *mut u32, out_cols_len: u64, out_values: *mut f64, out_values_len: u64,
    ) -> Answer;
    pub fn socwr_selector_matrix(
        dim: u64, starts: U32s, starts_len: u64, rows: U32s, rows_len: u64, weights: F64s, weights_len: u64,
        out: *mut f64, out_len: u64,
    ) -> Answer;
    pub fn socwr_combine(
        mode: u64, dim: u64, columns: u64, starts: U32s, starts_len: u64, rows: U32s, rows_len: u64, weights: F64s, weights_len: u64,
        sign: f64, rhs: F64s, rhs_len: u64, solution: F64s, solution_len: u64, out: *mut f64, out_len: u64,
    ) -> Answer;
    pub fn socwr_program_p(
        n: u64, m: u64, k: u64, s: u64, records: U8s, records_len: u64,
        starts: *mut u32, starts_len: u64, rows: *mut u32, rows_len: u64, values: *mut f64, values_len: u64,
    ) -> Answer;
    pub fn socwr_program_q(n: u64, m: u64, k: u64, s: u64, records: U8s, records_len: u64, q: *mut f64, q_len: u64) -> Answer;
    pub fn socwr_program_a(
        n: u64, m: u64, k: u64, s: u64, records: U8s, records_len: u64,
        starts: *mut u32, starts_len: u64, rows: *mut u32, rows_len: u64, values: *mut f64, values_len: u64,
    ) -> Answer;
    pub fn socwr_program_b(n: u64, m: u64, k: u64, s: u64, records: U8s, records_len: u64, b: *mut f64, b_len: u64) -> Answer;
    pub fn socwr_reading_check(
        n: u64, m: u64, k: u64, s: u64, records: U8s, records_len: u64, x: F64s, x_len: u64, z: F64s, z_len: u64,
    ) -> Answer;
    pub fn socwr_prices(
        n: u64, m: u64, k: u64, s: u64, records: U8s, records_len: u64, z: F64s, z_len: u64, prices: *mut f64, prices_len: u64,
    ) -> Answer;
    pub fn socwr_objective(
        n: u64, m: u64, k: u64, s: u64, records: U8s, records_len: u64, objective: u64, x: F64s, x_len: u64, solver: f64,
    ) -> Scalar;
    pub fn socwr_kkt_entries(
        n: u64, m: u64, k: u64, s: u64, records: U8s, records_len: u64, x: F64s, x_len: u64, z: F64s, z_len: u64,
        rows: *mut u32, rows_len: u64, cols: *mut u32, cols_len: u64, values: *mut f64, values_len: u64,
    ) -> Answer;
    pub fn socwr_parameter_len(n: u64, m: u64, k: u64, s: u64, records: U8s, records_len: u64, parameter: u64) -> Answer;
    pub fn socwr_operand_len(n: u64, m: u64, k: u64, s: u64, records: U8s, records_len: u64, operand: u64) -> Answer;
    pub fn socwr_parameter_jacobian(
        n: u64, m: u64, k: u64, s: u64, records: U8s, records_len: u64, x: F64s, x_len: u64, z: F64s, z_len: u64,
        parameter: u64, index: u64, column: *mut f64, column_len: u64,
    ) -> Answer;
    pub fn socwr_operand_selector(
        n: u64, m: u64, k: u64, s: u64, records: U8s, records_len: u64, operand: u64,
        starts: *mut u32, starts_len: u64, rows: *mut u32, rows_len: u64,
        weights: *mut f64, weights_len: u64, elements: *mut u32, elements_len: u64,
    ) -> Selector;
    pub fn socwr_element_id(n: u64, m: u64, k: u64, s: u64, records: U8s, records_len: u64, axis: u64, index: u64) -> Answer;
}

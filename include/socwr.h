/* SOCWR on the small controller: the entries of libkernel.a, for C99 and C++.
   A slice is a pointer and then its length in elements; a length of 0 may come with any pointer. What a call writes
   to overlaps nothing else that is lent to it.
   A refusal changes nothing lent; output past the length needed is unchanged.
   The bits of a NaN that is written or returned are free. The proofs do not tell one NaN from another: that a NaN which a
   call leaves alone stays a NaN is proved, that it keeps its bits is tested, of every entry with lists of doubles. */
#ifndef SOCWR_H
#define SOCWR_H

#include <stdint.h>

#ifdef __cplusplus
extern "C" {
#endif

/* What a lookup answers where there is nothing to name. */
#define SOCWR_NONE UINT64_MAX

/* The most that is taken. */
#define SOCWR_MOST_BUSES 4096
#define SOCWR_MOST_BRANCHES 8192
#define SOCWR_MOST_GENERATORS 4096
#define SOCWR_MOST_SEGMENTS 65536
#define SOCWR_MOST_COLUMNS 65536
#define SOCWR_MOST_DIM 294912
#define SOCWR_RECORD_BYTES 128

/* number 0: answered, and value is the answer; else the number of the cause and the value it returns. */
typedef struct socwr_answer {
    uint64_t number, value;
} socwr_answer;

/* result is the answer, 0.0 on a refusal. */
typedef struct socwr_scalar {
    uint64_t number, value;
    double result;
} socwr_scalar;

/* The last six are 0 on a refusal. t counts the branches with an active thermal limit. */
typedef struct socwr_sizes {
    uint64_t number, value, n_eq, n_ineq, nvar, ncon, t, cost_columns;
} socwr_sizes;

/* The last three are 0 on a refusal. */
typedef struct socwr_name {
    uint64_t number, value, block, index, place;
} socwr_name;

/* sign is +1.0 or -1.0, 0.0 on a refusal. */
typedef struct socwr_selector {
    uint64_t number, value;
    double sign;
} socwr_selector;

/* The blocks of columns. */
enum {
    SOCWR_COLUMN_PG,
    SOCWR_COLUMN_QG,
    SOCWR_COLUMN_W,
    SOCWR_COLUMN_WR,
    SOCWR_COLUMN_WI,
    SOCWR_COLUMN_PF,
    SOCWR_COLUMN_PT,
    SOCWR_COLUMN_QF,
    SOCWR_COLUMN_QT,
    SOCWR_COLUMN_COST
};

/* The blocks of rows. */
enum {
    SOCWR_ROW_PBAL,
    SOCWR_ROW_QBAL,
    SOCWR_ROW_OHM_PF,
    SOCWR_ROW_OHM_QF,
    SOCWR_ROW_OHM_PT,
    SOCWR_ROW_OHM_QT,
    SOCWR_ROW_WUB,
    SOCWR_ROW_WLB,
    SOCWR_ROW_PGUB,
    SOCWR_ROW_PGLB,
    SOCWR_ROW_QGUB,
    SOCWR_ROW_QGLB,
    SOCWR_ROW_ANGUB,
    SOCWR_ROW_ANGLB,
    SOCWR_ROW_COST,
    SOCWR_ROW_JABR,
    SOCWR_ROW_THERMAL
};

enum {
    SOCWR_DEMAND_ACTIVE,
    SOCWR_DEMAND_REACTIVE,
    SOCWR_COST_QUADRATIC,
    SOCWR_COST_LINEAR,
    SOCWR_LINE_LIMIT,
    SOCWR_SERIES_CONDUCTANCE,
    SOCWR_SERIES_SUSCEPTANCE,
    SOCWR_SHUNT_CONDUCTANCE,
    SOCWR_SHUNT_SUSCEPTANCE,
    SOCWR_VOLTAGE_MIN,
    SOCWR_VOLTAGE_MAX,
    SOCWR_GEN_ACTIVE_MIN,
    SOCWR_GEN_ACTIVE_MAX,
    SOCWR_GEN_REACTIVE_MIN,
    SOCWR_GEN_REACTIVE_MAX,
    SOCWR_TRANSFORMER_RATIO,
    SOCWR_TRANSFORMER_PHASE_SHIFT,
    SOCWR_SWITCHING,
    SOCWR_CONSTRAINT_LIMIT
};

enum {
    SOCWR_PRICE_ACTIVE,
    SOCWR_PRICE_REACTIVE,
    SOCWR_DISPATCH_ACTIVE,
    SOCWR_DISPATCH_REACTIVE,
    SOCWR_FLOW_ACTIVE_FROM,
    SOCWR_FLOW_ACTIVE_TO,
    SOCWR_FLOW_REACTIVE_FROM,
    SOCWR_FLOW_REACTIVE_TO,
    SOCWR_VOLTAGE_MAGNITUDE,
    SOCWR_VOLTAGE_ANGLE,
    SOCWR_VOLTAGE_SQUARED,
    SOCWR_VOLTAGE_PRODUCT_REAL,
    SOCWR_VOLTAGE_PRODUCT_IMAG
};

enum { SOCWR_FORWARD, SOCWR_ADJOINT, SOCWR_AUTO };

enum { SOCWR_AXIS_BUS, SOCWR_AXIS_BRANCH, SOCWR_AXIS_GENERATOR, SOCWR_AXIS_CONSTRAINT };

/* The last stands for every further objective, whose value is the solver's. */
enum { SOCWR_FEASIBILITY, SOCWR_NETWORK_GENERATOR_COST, SOCWR_OTHER_OBJECTIVE };

/* Records and numbering. n, m, k, s count the buses, branches, generators and segments in records. */

/* Whether the records are accepted. */
socwr_answer socwr_check_records(uint64_t n, uint64_t m, uint64_t k, uint64_t s,
                                 const uint8_t *records, uint64_t records_len);

/* The sizes of the program. */
socwr_sizes socwr_layout_new(uint64_t n, uint64_t m, uint64_t k, uint64_t s,
                             const uint8_t *records, uint64_t records_len);

/* The number of a column; SOCWR_NONE for a generator without cost column. */
socwr_answer socwr_column_number(uint64_t n, uint64_t m, uint64_t k, uint64_t s,
                                 const uint8_t *records, uint64_t records_len,
                                 uint64_t block, uint64_t index);

/* The number of a row. place is the segment in cost, 0..3 in jabr, 0..5 in thermal, else 0.
   SOCWR_NONE for a generator without cost rows and for a branch without limit. */
socwr_answer socwr_row_number(uint64_t n, uint64_t m, uint64_t k, uint64_t s,
                              const uint8_t *records, uint64_t records_len,
                              uint64_t block, uint64_t index, uint64_t place);

/* The name of a column, and of a row. */
socwr_name socwr_column_name(uint64_t n, uint64_t m, uint64_t k, uint64_t s,
                             const uint8_t *records, uint64_t records_len, uint64_t number);
socwr_name socwr_row_name(uint64_t n, uint64_t m, uint64_t k, uint64_t s,
                          const uint8_t *records, uint64_t records_len, uint64_t number);

/* The lengths of the cones: zero, nonnegative, then the second-order ones. Answers their count. */
socwr_answer socwr_cones(uint64_t n, uint64_t m, uint64_t k, uint64_t s,
                         const uint8_t *records, uint64_t records_len,
                         uint32_t *lengths, uint64_t lengths_len);

/* Interface and combination. A matrix lies by columns: row r of column c at c * dim + r. */

/* The scale of an operand divided by that of a parameter. */
socwr_scalar socwr_unit_scale(uint64_t operand, uint64_t parameter, double base);

/* One row of weight 1.0 for each item. Answers the count of items. */
socwr_answer socwr_selector_new(const uint32_t *from_rows, uint64_t from_rows_len,
                                const uint32_t *from_elements, uint64_t from_elements_len,
                                uint32_t *starts, uint64_t starts_len,
                                uint32_t *rows, uint64_t rows_len,
                                double *weights, uint64_t weights_len,
                                uint32_t *elements, uint64_t elements_len);

/* The largest magnitude; what is no number is skipped. */
socwr_scalar socwr_max_abs(const double *matrix, uint64_t matrix_len);

/* rhs less the matrix times answer, with eps on the diagonal. Answers dim * columns. */
socwr_answer socwr_residual(uint64_t dim, uint64_t columns,
                            const uint32_t *rows, uint64_t rows_len,
                            const uint32_t *cols, uint64_t cols_len,
                            const double *values, uint64_t values_len,
                            double eps,
                            const double *rhs, uint64_t rhs_len,
                            const double *answer, uint64_t answer_len,
                            double *out, uint64_t out_len);

/* The entries with row and column exchanged. Answers their count. */
socwr_answer socwr_transpose(uint64_t dim,
                             const uint32_t *rows, uint64_t rows_len,
                             const uint32_t *cols, uint64_t cols_len,
                             const double *values, uint64_t values_len,
                             uint32_t *out_rows, uint64_t out_rows_len,
                             uint32_t *out_cols, uint64_t out_cols_len,
                             double *out_values, uint64_t out_values_len);

/* The items as columns of a matrix. Answers dim * items. */
socwr_answer socwr_selector_matrix(uint64_t dim,
                                   const uint32_t *starts, uint64_t starts_len,
                                   const uint32_t *rows, uint64_t rows_len,
                                   const double *weights, uint64_t weights_len,
                                   double *out, uint64_t out_len);

/* The sensitivities from a given solution; item o, column c at o * columns + c. Answers items * columns. */
socwr_answer socwr_combine(uint64_t mode, uint64_t dim, uint64_t columns,
                           const uint32_t *starts, uint64_t starts_len,
                           const uint32_t *rows, uint64_t rows_len,
                           const double *weights, uint64_t weights_len,
                           double sign,
                           const double *rhs, uint64_t rhs_len,
                           const double *solution, uint64_t solution_len,
                           double *out, uint64_t out_len);

/* Program and reading. min 1/2 x'Px + q'x, with Ax + s = b and s in the cones. */

/* P and A by columns: the entries of column c lie from starts[c] up to starts[c + 1], rows ascending; zeros are
   left out. starts has nvar + 1 elements. Answers the count of entries. */
socwr_answer socwr_program_p(uint64_t n, uint64_t m, uint64_t k, uint64_t s,
                             const uint8_t *records, uint64_t records_len,
                             uint32_t *starts, uint64_t starts_len,
                             uint32_t *rows, uint64_t rows_len,
                             double *values, uint64_t values_len);
socwr_answer socwr_program_a(uint64_t n, uint64_t m, uint64_t k, uint64_t s,
                             const uint8_t *records, uint64_t records_len,
                             uint32_t *starts, uint64_t starts_len,
                             uint32_t *rows, uint64_t rows_len,
                             double *values, uint64_t values_len);

/* q and b. Answers nvar, and ncon. */
socwr_answer socwr_program_q(uint64_t n, uint64_t m, uint64_t k, uint64_t s,
                             const uint8_t *records, uint64_t records_len,
                             double *q, uint64_t q_len);
socwr_answer socwr_program_b(uint64_t n, uint64_t m, uint64_t k, uint64_t s,
                             const uint8_t *records, uint64_t records_len,
                             double *b, uint64_t b_len);

/* Whether x has nvar elements and z has ncon. The list of a block of columns is then part of x:
   it begins at the number of the block's first column. */
socwr_answer socwr_reading_check(uint64_t n, uint64_t m, uint64_t k, uint64_t s,
                                 const uint8_t *records, uint64_t records_len,
                                 const double *x, uint64_t x_len,
                                 const double *z, uint64_t z_len);

/* The active prices of the buses, then the reactive ones. Answers 2 n. */
socwr_answer socwr_prices(uint64_t n, uint64_t m, uint64_t k, uint64_t s,
                          const uint8_t *records, uint64_t records_len,
                          const double *z, uint64_t z_len,
                          double *prices, uint64_t prices_len);

/* The value of an objective at x; solver is the solver's own number. */
socwr_scalar socwr_objective(uint64_t n, uint64_t m, uint64_t k, uint64_t s,
                             const uint8_t *records, uint64_t records_len,
                             uint64_t objective, const double *x, uint64_t x_len, double solver);

/* KKT entries, columns and selectors. x has nvar elements, z ncon. The matrix has nvar + ncon rows and columns;
   row r of the program is row nvar + r of it. */

/* The entries of the KKT matrix at x and z: row, column and value of each. Answers their count, which is at most
   10 n + 17 k + 82 m + 5 s + 26 t. */
socwr_answer socwr_kkt_entries(uint64_t n, uint64_t m, uint64_t k, uint64_t s,
                               const uint8_t *records, uint64_t records_len,
                               const double *x, uint64_t x_len,
                               const double *z, uint64_t z_len,
                               uint32_t *rows, uint64_t rows_len,
                               uint32_t *cols, uint64_t cols_len,
                               double *values, uint64_t values_len);

/* How many elements a parameter, and an operand, ranges over. */
socwr_answer socwr_parameter_len(uint64_t n, uint64_t m, uint64_t k, uint64_t s,
                                 const uint8_t *records, uint64_t records_len, uint64_t parameter);
socwr_answer socwr_operand_len(uint64_t n, uint64_t m, uint64_t k, uint64_t s,
                               const uint8_t *records, uint64_t records_len, uint64_t operand);

/* One column of the parameter's Jacobian at x and z: that of the element index. Answers nvar + ncon. */
socwr_answer socwr_parameter_jacobian(uint64_t n, uint64_t m, uint64_t k, uint64_t s,
                                      const uint8_t *records, uint64_t records_len,
                                      const double *x, uint64_t x_len,
                                      const double *z, uint64_t z_len,
                                      uint64_t parameter, uint64_t index,
                                      double *column, uint64_t column_len);

/* The rows of a solution that an operand reads, one of weight 1.0 for each item, and the sign that it is reported
   with. starts has one element more than there are items. Answers the count of items. */
socwr_selector socwr_operand_selector(uint64_t n, uint64_t m, uint64_t k, uint64_t s,
                                      const uint8_t *records, uint64_t records_len, uint64_t operand,
                                      uint32_t *starts, uint64_t starts_len,
                                      uint32_t *rows, uint64_t rows_len,
                                      double *weights, uint64_t weights_len,
                                      uint32_t *elements, uint64_t elements_len);

/* The id of an element; on the constraint axis the index itself, every index. */
socwr_answer socwr_element_id(uint64_t n, uint64_t m, uint64_t k, uint64_t s,
                              const uint8_t *records, uint64_t records_len, uint64_t axis, uint64_t index);

#ifdef __cplusplus
}
#endif

#endif

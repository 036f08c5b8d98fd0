/* Interface and combination from C: every entry, and every cause it may refuse for. */
#include "answer.h"

#define ROOM 16

/* Lent lists, each ending at an unmapped page. */
typedef struct numbers {
    const uint32_t *at;
    uint64_t len;
} numbers;

typedef struct floats {
    const double *at;
    uint64_t len;
} floats;

#define NUMBERS(...) \
    ((numbers){lend_read((const uint32_t[]){__VA_ARGS__}, sizeof((const uint32_t[]){__VA_ARGS__})), \
               sizeof((const uint32_t[]){__VA_ARGS__}) / 4})
#define FLOATS(...) \
    ((floats){lend_read((const double[]){__VA_ARGS__}, sizeof((const double[]){__VA_ARGS__})), \
              sizeof((const double[]){__VA_ARGS__}) / 8})
#define GIVEN(list) (list).at, (list).len

static const numbers no_numbers = {NULL, 0};
static const floats no_floats = {NULL, 0};

/* J, a scale of each kind, and codes that name nothing. */
static void unit_scale(void) {
    socwr_scalar got = socwr_unit_scale(SOCWR_PRICE_ACTIVE, SOCWR_DEMAND_ACTIVE, 4.0);
    EXPECT(!got.number && !got.value && got.result == 0.0625);
    EXPECT(socwr_unit_scale(SOCWR_DISPATCH_ACTIVE, SOCWR_GEN_REACTIVE_MAX, 8.0).result == 1.0);
    EXPECT(socwr_unit_scale(SOCWR_FLOW_REACTIVE_TO, SOCWR_SWITCHING, 8.0).result == 8.0);
    EXPECT(socwr_unit_scale(SOCWR_VOLTAGE_ANGLE, SOCWR_CONSTRAINT_LIMIT, 2.0).result == 0.5);
    EXPECT(socwr_unit_scale(SOCWR_VOLTAGE_PRODUCT_IMAG, SOCWR_TRANSFORMER_RATIO, 3.0).result == 1.0);
    got = socwr_unit_scale(13, 0, 2.0);
    EXPECT(got.number == 9 && !got.value && got.result == 0.0);
    got = socwr_unit_scale(0, 19, 2.0);
    EXPECT(got.number == 9 && !got.value && got.result == 0.0);
    got = socwr_unit_scale(UINT64_MAX, UINT64_MAX, 2.0);
    EXPECT(got.number == 9 && !got.value && got.result == 0.0);
}

static void max_abs(void) {
    static const double nan = 0.0 / 0.0;
    floats list = FLOATS(1.0, -3.0, 2.0, nan, -0.0);
    socwr_scalar got = socwr_max_abs(GIVEN(list));
    EXPECT(!got.number && !got.value && got.result == 3.0);
    EXPECT(socwr_max_abs(NULL, 0).result == 0.0);
    list = FLOATS(nan);
    EXPECT(socwr_max_abs(GIVEN(list)).result == 0.0);
}

/* Lends each output one short in turn; `need` has the four lengths. */
static void selector_short(numbers rows, numbers elements, const uint64_t *need) {
    for (int i = 0; i < 4; i++) {
        uint64_t len[4] = {need[0], need[1], need[2], need[3]};
        len[i]--;
        uint32_t *starts = blank32(len[0]), *to = blank32(len[1]), *ids = blank32(len[3]);
        double *weights = blank64(len[2]);
        EXPECT(is(socwr_selector_new(GIVEN(rows), GIVEN(elements), starts, len[0], to, len[1], weights, len[2], ids, len[3]), 10, need[i]));
        EXPECT(untouched(starts, 4 * len[0]) && untouched(to, 4 * len[1]));
        EXPECT(untouched(weights, 8 * len[2]) && untouched(ids, 4 * len[3]));
    }
}

static void selector_new(void) {
    static const double ones[2] = {1.0, 1.0};
    static const uint32_t zero[1] = {0};
    static const uint64_t need[4] = {3, 2, 2, 2};
    numbers rows = NUMBERS(7, 4294967295u), elements = NUMBERS(3, 1);
    numbers want = NUMBERS(0, 1, 2);
    uint32_t *starts = blank32(3), *to = blank32(2), *ids = blank32(2);
    double *weights = blank64(2);
    EXPECT(is(socwr_selector_new(GIVEN(rows), GIVEN(elements), starts, 3, to, 2, weights, 2, ids, 2), 0, 2));
    EXPECT(!memcmp(starts, want.at, 12) && !memcmp(to, rows.at, 8));
    EXPECT(same(weights, ones, 2) && !memcmp(ids, elements.at, 8));
    selector_short(rows, elements, need);
    EXPECT(is(socwr_selector_new(GIVEN(rows), elements.at + 1, 1, starts, 3, to, 2, weights, 2, ids, 2), 12, 0));
    uint32_t *one = blank32(1);
    EXPECT(is(socwr_selector_new(NULL, 0, NULL, 0, one, 1, NULL, 0, NULL, 0, NULL, 0), 0, 0));
    EXPECT(!memcmp(one, zero, 4));
    EXPECT(is(socwr_selector_new(NULL, 0, NULL, 0, NULL, 0, NULL, 0, NULL, 0, NULL, 0), 10, 1));
}

/* Room for more than two items: what lies behind them is left alone. */
static void selector_longer(void) {
    numbers rows = NUMBERS(7, 8), elements = NUMBERS(3, 1);
    uint32_t *starts = blank32(5), *to = blank32(3), *ids = blank32(6);
    double *weights = blank64(9);
    EXPECT(is(socwr_selector_new(GIVEN(rows), elements.at, 1, starts, 5, to, 3, weights, 9, ids, 6), 12, 0));
    EXPECT(untouched(starts, 20) && untouched(to, 12) && untouched(weights, 72) && untouched(ids, 24));
    EXPECT(is(socwr_selector_new(GIVEN(rows), GIVEN(elements), starts, 5, to, 3, weights, 9, ids, 6), 0, 2));
    EXPECT(weights[0] == 1.0 && weights[1] == 1.0 && untouched(weights + 2, 56));
    EXPECT(untouched(starts + 3, 8) && untouched(to + 2, 4) && untouched(ids + 2, 16));
}

/* The most items, and one more. */
static void selector_limit(void) {
    uint64_t most = SOCWR_MOST_COLUMNS;
    uint32_t *rows = blank32(most + 1), *starts = blank32(most + 1), *to = blank32(most), *ids = blank32(most);
    double *weights = blank64(most);
    EXPECT(is(socwr_selector_new(rows, most + 1, rows, most + 1, starts, most + 1, to, most, weights, most, ids, most), 12, 0));
    EXPECT(untouched(starts, 4 * (most + 1)) && untouched(weights, 8 * most));
    EXPECT(is(socwr_selector_new(rows + 1, most, rows + 1, most, starts, most + 1, to, most, weights, most, ids, most), 0, most));
    EXPECT(starts[most] == most && weights[most - 1] == 1.0 && to[most - 1] == rows[most]);
}

/* What the residual takes. */
typedef struct residual_case {
    uint64_t dim, columns;
    numbers rows, cols;
    floats values;
    double eps;
    floats rhs, answer;
} residual_case;

static socwr_answer residual_of(residual_case c, double *out, uint64_t len) {
    return socwr_residual(c.dim, c.columns, GIVEN(c.rows), GIVEN(c.cols), GIVEN(c.values), c.eps,
                          GIVEN(c.rhs), GIVEN(c.answer), out, len);
}

/* K has 2 at (0, 1) twice and 3 at (1, 0). */
static residual_case residual_example(void) {
    residual_case c = {2, 2, NUMBERS(0, 1, 0), NUMBERS(1, 0, 1), FLOATS(2.0, 3.0, 2.0), 0.0,
                       FLOATS(1.0, 2.0, 3.0, 4.0), FLOATS(10.0, 20.0, 30.0, 40.0)};
    return c;
}

static void residual(void) {
    static const double plain[4] = {-79.0, -28.0, -157.0, -86.0}, more[4] = {-84.0, -38.0, -172.0, -106.0};
    residual_case c = residual_example();
    double *out = blank64(4), *longer = blank64(6), *few = blank64(3);
    EXPECT(is(residual_of(c, out, 4), 0, 4) && same(out, plain, 4));
    c.eps = 0.5;
    EXPECT(is(residual_of(c, out, 4), 0, 4) && same(out, more, 4));
    c.eps = -0.0;
    EXPECT(is(residual_of(c, longer, 6), 0, 4) && same(longer, plain, 4) && untouched(longer + 4, 16));
    EXPECT(is(residual_of(c, few, 3), 10, 4) && untouched(few, 24));
    EXPECT(is(residual_of(c, NULL, 0), 10, 4));
    residual_case none = {0, 7, no_numbers, no_numbers, no_floats, 1.0, no_floats, no_floats};
    EXPECT(is(residual_of(none, NULL, 0), 0, 0));
}

/* A residual that is 12, with room enough and with none, and writes nothing. */
static void residual_misfit(residual_case c, int line) {
    double *out = blank64(ROOM);
    expect(is(residual_of(c, out, ROOM), 12, 0) && untouched(out, 8 * ROOM), "residual is 12", line);
    expect(is(residual_of(c, NULL, 0), 12, 0), "residual is 12 before 10", line);
}

static void residual_refuses(void) {
    static const uint64_t far[4] = {SOCWR_MOST_DIM + 1, (uint64_t)1 << 32, (uint64_t)1 << 63, UINT64_MAX};
    residual_case c = residual_example();
    for (int i = 0; i < 4; i++) {
        residual_case none = {far[i], 0, no_numbers, no_numbers, no_floats, 0.0, no_floats, no_floats};
        residual_misfit(none, __LINE__);
        none.dim = 0;
        none.columns = i ? far[i] : SOCWR_MOST_COLUMNS + 1;
        residual_misfit(none, __LINE__);
    }
    c.rows = NUMBERS(0, 2, 0), residual_misfit(c, __LINE__), c = residual_example();
    c.cols = NUMBERS(1, 0, 4294967295u), residual_misfit(c, __LINE__), c = residual_example();
    c.rows = NUMBERS(0, 1), residual_misfit(c, __LINE__), c = residual_example();
    c.cols = no_numbers, residual_misfit(c, __LINE__), c = residual_example();
    c.values = FLOATS(1.0, 2.0, 3.0, 4.0), residual_misfit(c, __LINE__), c = residual_example();
    c.rhs = FLOATS(1.0, 2.0, 3.0), residual_misfit(c, __LINE__), c = residual_example();
    c.answer = FLOATS(1.0, 2.0, 3.0, 4.0, 5.0), residual_misfit(c, __LINE__);
}

static void transpose(void) {
    numbers rows = NUMBERS(0, 1, 0), cols = NUMBERS(1, 0, 1), far = NUMBERS(0, 1, 2);
    floats values = FLOATS(2.0, -0.0, 4.0);
    uint32_t *r = blank32(3), *c = blank32(3);
    double *v = blank64(3);
    EXPECT(is(socwr_transpose(2, GIVEN(rows), GIVEN(far), GIVEN(values), r, 3, c, 3, v, 3), 12, 0));
    EXPECT(is(socwr_transpose(2, GIVEN(far), GIVEN(cols), GIVEN(values), r, 3, c, 3, v, 3), 12, 0));
    EXPECT(is(socwr_transpose(2, GIVEN(rows), cols.at, 2, GIVEN(values), r, 3, c, 3, v, 3), 12, 0));
    EXPECT(is(socwr_transpose(2, GIVEN(rows), GIVEN(cols), values.at, 2, r, 3, c, 3, v, 3), 12, 0));
    EXPECT(is(socwr_transpose(SOCWR_MOST_DIM + 1, NULL, 0, NULL, 0, NULL, 0, r, 3, c, 3, v, 3), 12, 0));
    EXPECT(is(socwr_transpose(2, GIVEN(rows), GIVEN(cols), GIVEN(values), r, 2, c, 3, v, 3), 10, 3));
    EXPECT(is(socwr_transpose(2, GIVEN(rows), GIVEN(cols), GIVEN(values), r, 3, c, 2, v, 3), 10, 3));
    EXPECT(is(socwr_transpose(2, GIVEN(rows), GIVEN(cols), GIVEN(values), r, 3, c, 3, v, 2), 10, 3));
    EXPECT(untouched(r, 12) && untouched(c, 12) && untouched(v, 24));
    EXPECT(is(socwr_transpose(2, GIVEN(rows), GIVEN(cols), GIVEN(values), r, 3, c, 3, v, 3), 0, 3));
    EXPECT(!memcmp(r, cols.at, 12) && !memcmp(c, rows.at, 12) && same(v, values.at, 3));
    r = blank32(4), c = blank32(5), v = blank64(9);
    EXPECT(is(socwr_transpose(2, GIVEN(rows), GIVEN(cols), GIVEN(values), r, 4, c, 5, v, 9), 0, 3));
    EXPECT(same(v, values.at, 3) && untouched(v + 3, 48) && untouched(r + 3, 4) && untouched(c + 3, 8));
    EXPECT(is(socwr_transpose(SOCWR_MOST_DIM, NULL, 0, NULL, 0, NULL, 0, NULL, 0, NULL, 0, NULL, 0), 0, 0));
}

/* What a combination takes. */
typedef struct combine_case {
    uint64_t mode, dim, columns;
    numbers starts, rows;
    floats weights;
    double sign;
    floats rhs, solution;
} combine_case;

static socwr_answer combined(combine_case c, double *out, uint64_t len) {
    return socwr_combine(c.mode, c.dim, c.columns, GIVEN(c.starts), GIVEN(c.rows), GIVEN(c.weights), c.sign,
                         GIVEN(c.rhs), GIVEN(c.solution), out, len);
}

static socwr_answer matrix_of(combine_case c, double *out, uint64_t len) {
    return socwr_selector_matrix(c.dim, GIVEN(c.starts), GIVEN(c.rows), GIVEN(c.weights), out, len);
}

/* Three items: 2 and 3 at rows 0 and 1, nothing, 0.5 twice at row 1. */
static combine_case combine_example(uint64_t mode) {
    combine_case c = {mode, 2, 2, NUMBERS(0, 2, 2, 4), NUMBERS(0, 1, 1, 1), FLOATS(2.0, 3.0, 0.5, 0.5), -1.0, no_floats, no_floats};
    if (mode == SOCWR_FORWARD) {
        c.solution = FLOATS(1.0, 10.0, 100.0, 1000.0);
    } else {
        c.rhs = FLOATS(0.0, 2.0, 3.0, -0.0);
        c.solution = FLOATS(0.0 / 0.0, 1.0, 5.0, 6.0, 7.0, 8.0);
    }
    return c;
}

static void selector_matrix(void) {
    static const double want[6] = {2.0, 3.0, 0.0, 0.0, 0.0, 1.0};
    combine_case c = combine_example(SOCWR_FORWARD);
    double *out = blank64(6), *few = blank64(5), *longer = blank64(7);
    EXPECT(is(matrix_of(c, out, 6), 0, 6) && same(out, want, 6));
    EXPECT(is(matrix_of(c, few, 5), 10, 6) && untouched(few, 40));
    EXPECT(is(matrix_of(c, longer, 7), 0, 6) && same(longer, want, 6) && untouched(longer + 6, 8));
    c.starts = NUMBERS(0), c.rows = no_numbers, c.weights = no_floats;
    EXPECT(is(matrix_of(c, NULL, 0), 0, 0));
    c.dim = SOCWR_MOST_DIM + 1;
    EXPECT(is(matrix_of(c, NULL, 0), 12, 0));
}

static void combine(void) {
    static const double forward[6] = {-32.0, -3200.0, -0.0, -0.0, -10.0, -1000.0};
    double *out = blank64(6), *few = blank64(5), *longer = blank64(8);
    combine_case c = combine_example(SOCWR_FORWARD);
    EXPECT(is(combined(c, out, 6), 0, 6) && same(out, forward, 6));
    c.rhs = FLOATS(1.0);
    EXPECT(is(combined(c, longer, 8), 0, 6) && same(longer, forward, 6) && untouched(longer + 6, 16));
    EXPECT(is(combined(c, few, 5), 10, 6) && untouched(few, 40));
    c = combine_example(SOCWR_ADJOINT);
    EXPECT(is(combined(c, out, 6), 0, 6));
    EXPECT(out[0] == -2.0 && out[1] != out[1] && out[2] == -12.0 && out[3] == -15.0 && out[4] == -16.0 && out[5] == -21.0);
    EXPECT(is(combined(c, few, 5), 10, 6) && untouched(few, 40));
    c.columns = 0, c.rhs = no_floats;
    EXPECT(is(combined(c, NULL, 0), 0, 0));
}

/* A case that is refused, with room enough and with none, and writes nothing. */
static void refuses(combine_case c, uint64_t number, uint64_t value, int line) {
    double *out = blank64(ROOM);
    expect(is(combined(c, out, ROOM), number, value) && untouched(out, 8 * ROOM), "combine refuses", line);
    expect(is(combined(c, NULL, 0), number, value), "combine refuses before 10", line);
}

/* The selector's lists, which both modes and the matrix look at. */
static void broken_selector(uint64_t mode) {
    const numbers starts[7] = {no_numbers, NUMBERS(1, 2, 2, 4), NUMBERS(0, 2, 2, 3), NUMBERS(0, 2, 2, 5),
                               NUMBERS(0, 2, 1, 4), NUMBERS(0, 2, 5, 4), NUMBERS(0, 2, 2, 4, 3)};
    double *out = blank64(ROOM);
    for (int i = 0; i < 10; i++) {
        combine_case c = combine_example(mode);
        if (i < 7) c.starts = starts[i];
        if (i == 7) c.rows = NUMBERS(0, 1, 1, 2);
        if (i == 8) c.weights = FLOATS(1.0, 2.0, 3.0);
        if (i == 9) c.weights = FLOATS(1.0, 2.0, 3.0, 4.0, 5.0);
        refuses(c, 12, 0, __LINE__);
        EXPECT(is(matrix_of(c, out, ROOM), 12, 0) && untouched(out, 8 * ROOM));
        c.mode = SOCWR_AUTO, refuses(c, 11, 0, __LINE__);
        c.mode = 3, refuses(c, 7, 3, __LINE__);
    }
}

/* Sizes and matrices. */
static void broken_sizes(uint64_t mode) {
    combine_case c = combine_example(mode);
    c.dim = SOCWR_MOST_DIM + 1, refuses(c, 12, 0, __LINE__), c = combine_example(mode);
    c.dim = (uint64_t)1 << 63, refuses(c, 12, 0, __LINE__), c = combine_example(mode);
    c.columns = SOCWR_MOST_COLUMNS + 1, refuses(c, 12, 0, __LINE__), c = combine_example(mode);
    c.columns = (uint64_t)1 << 63, refuses(c, 12, 0, __LINE__), c = combine_example(mode);
    c.columns = 3, refuses(c, 12, 0, __LINE__), c = combine_example(mode);
    c.solution = FLOATS(1.0, 2.0, 3.0), refuses(c, 12, 0, __LINE__), c = combine_example(mode);
    c.mode = UINT64_MAX, refuses(c, 7, UINT64_MAX, __LINE__), c = combine_example(mode);
    if (mode == SOCWR_ADJOINT) c.rhs = FLOATS(1.0, 2.0, 3.0), refuses(c, 12, 0, __LINE__);
}

static void all(void) {
    unit_scale();
    max_abs();
    selector_new();
    selector_longer();
    selector_limit();
    residual();
    residual_refuses();
    transpose();
    selector_matrix();
    combine();
    for (uint64_t mode = SOCWR_FORWARD; mode <= SOCWR_ADJOINT; mode++) {
        broken_selector(mode);
        broken_sizes(mode);
    }
}

int main(void) {
    return run("interface and combination", all);
}

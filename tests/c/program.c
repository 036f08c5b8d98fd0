/* Program and reading from C: Q, the lettered examples D, G and H, and every cause. */
#include "solution.h"

#include <math.h>

#define ENTRIES 36

/* π and its neighbours. */
static const double pi = 3.141592653589793, above = 0x1.921fb54442d19p+1, below = 0x1.921fb54442d17p+1;

/* The same bits of the result too. */
static int scalar(socwr_scalar got, uint64_t number, uint64_t value, double result) {
    return got.number == number && got.value == value && !memcmp(&got.result, &result, 8);
}

/* The floats of a record, from the first on. */
static void put_floats(uint64_t at, const double *x, int count) {
    for (int i = 0; i < count; i++) put_float(at, i, x[i]);
}

/* Q with the voltage bound of bus 0 active, tap 2, and the flags of the branch and the generator as given. */
static void make_program(int branch, int generator, double angmin, double angmax, double tangent) {
    static const double bus[6] = {0.5, 0.25, 1.0, 2.0, 0.5, 1.5}, other[6] = {0.0, -0.0, 3.0, 4.0, 0.5, 1.5};
    static const double costs[7] = {-1.0, 5.0, -2.0, 6.0, 3.0, 7.0, 11.0};
    double line[14] = {1.0, -2.0, 0.0, 0.5, 0.0, 0.5, 2.0, 1.0, 0.0, angmin, angmax, -tangent, tangent, 4.0};
    make_q(branch);
    record(0)[1] = 1;
    record(3)[1] = (uint8_t)generator;
    put_floats(0, bus, 6);
    put_floats(1, other, 6);
    put_floats(2, line, 14);
    put_floats(3, costs, 7);
}

static network program(int branch, int generator, double angmin, double angmax, double tangent) {
    make_program(branch, generator, angmin, angmax, tangent);
    return lent(2, 1, 1, 0);
}

/* Lists by columns, each ending at an unmapped page. */
typedef struct columns {
    uint32_t *starts, *rows;
    double *values;
    uint64_t starts_len, rows_len, values_len;
} columns;

#define OUT(c) (c).starts, (c).starts_len, (c).rows, (c).rows_len, (c).values, (c).values_len

static columns blank(uint64_t starts, uint64_t rows, uint64_t values) {
    columns c = {blank32(starts), blank32(rows), blank64(values), starts, rows, values};
    return c;
}

/* Nothing was written from these places on. */
static int left_alone(columns c, uint64_t starts, uint64_t entries) {
    return untouched(c.starts + starts, 4 * (c.starts_len - starts)) && untouched(c.rows + entries, 4 * (c.rows_len - entries)) &&
           untouched(c.values + entries, 8 * (c.values_len - entries));
}

typedef socwr_answer matrix(uint64_t, uint64_t, uint64_t, uint64_t, const uint8_t *, uint64_t, uint32_t *, uint64_t,
                            uint32_t *, uint64_t, double *, uint64_t);
typedef socwr_answer side(uint64_t, uint64_t, uint64_t, uint64_t, const uint8_t *, uint64_t, double *, uint64_t);

/* P or A of the network into exactly enough, longer, and each output one short. */
static columns by_columns(network net, matrix *entry, uint64_t starts, uint64_t entries) {
    columns c = blank(starts, entries, entries), longer = blank(starts + 2, entries + 1, entries + 3);
    EXPECT(is(entry(NET(net), OUT(c)), 0, entries));
    EXPECT(is(entry(NET(net), OUT(longer)), 0, entries) && left_alone(longer, starts, entries));
    EXPECT(!memcmp(c.starts, longer.starts, 4 * starts) && !memcmp(c.rows, longer.rows, 4 * entries));
    EXPECT(same(c.values, longer.values, entries) && c.starts[0] == 0 && c.starts[starts - 1] == entries);
    columns few = blank(starts - 1, entries, entries);
    EXPECT(is(entry(NET(net), OUT(few)), 10, starts) && left_alone(few, 0, 0));
    EXPECT(is(entry(NET(net), NULL, 0, NULL, 0, NULL, 0), 10, starts));
    if (entries) {
        few = blank(starts, entries - 1, entries);
        EXPECT(is(entry(NET(net), OUT(few)), 10, entries) && left_alone(few, 0, 0));
        few = blank(starts, entries, entries - 1);
        EXPECT(is(entry(NET(net), OUT(few)), 10, entries) && left_alone(few, 0, 0));
    }
    return c;
}

/* q or b into exactly enough, longer, and one short. */
static const double *one_list(network net, side *entry, uint64_t count) {
    double *out = blank64(count), *longer = blank64(count + 2), *few = blank64(count - 1);
    EXPECT(is(entry(NET(net), out, count), 0, count));
    EXPECT(is(entry(NET(net), longer, count + 2), 0, count) && same(out, longer, count) && untouched(longer + count, 16));
    EXPECT(is(entry(NET(net), few, count - 1), 10, count) && untouched(few, 8 * (count - 1)));
    EXPECT(is(entry(NET(net), NULL, 0), 10, count));
    return out;
}

/* The value at a row of a column; 0.0 where there is no entry. */
static double value_at(columns c, uint32_t row, uint64_t column) {
    for (uint32_t i = c.starts[column]; i < c.starts[column + 1]; i++) {
        if (c.rows[i] == row) return c.values[i];
    }
    return 0.0;
}

/* A of Q: gs and bs of bus 1 are zeros and left out, so are the angle rows. */
static void a_of_q(void) {
    static const uint32_t starts[Q_NVAR + 1] = {0, 1, 2, 10, 14, 19, 24, 27, 30, 33, 36};
    static const uint32_t rows[ENTRIES] = {0, 2, 0, 2, 4, 5, 8, 10, 18, 21, 6, 7, 18, 21, 4, 5, 6, 7,
                                           19, 4, 5, 6, 7, 20, 0, 4, 23, 1, 6, 26, 2, 5, 24, 3, 7, 27};
    static const double values[ENTRIES] = {1.0, 1.0, -0.5, 0.25, -0.25, -0.375, 1.0, -1.0, -0.5, -0.5, -1.0, -1.5,
                                           -0.5, 0.5, 0.5, 1.0, 0.5, 1.0, -1.0, -1.0, 0.5, 1.0, -0.5, -1.0,
                                           -1.0, 1.0, -1.0, -1.0, 1.0, -1.0, -1.0, 1.0, -1.0, -1.0, 1.0, -1.0};
    columns a = by_columns(program(1, 0, -1.0, 1.0, 1.5), socwr_program_a, Q_NVAR + 1, ENTRIES);
    EXPECT(!memcmp(a.starts, starts, sizeof starts) && !memcmp(a.rows, rows, sizeof rows));
    EXPECT(same(a.values, values, ENTRIES));
}

/* P, q and b of Q; example G in rows wub and wlb of bus 0. */
static void p_q_b_of_q(void) {
    static const uint32_t starts[Q_NVAR + 1] = {0, 1, 1, 1, 1, 1, 1, 1, 1, 1, 1};
    static const double q[Q_NVAR] = {7.0}, p = 6.0;
    static const double b[Q_NCON] = {1.0, 3.0, 2.0, 4.0, 0.0, 0.0, 0.0, 0.0, 2.25, 1.0, -0.25, 1.0, 1.0, 1.0,
                                   1.0, 1.0, 1.0, 1.0, 0.0, 0.0, 0.0, 0.0, 4.0, 0.0, 0.0, 4.0, 0.0, 0.0};
    network net = program(1, 0, -1.0, 1.0, 1.5);
    columns c = by_columns(net, socwr_program_p, Q_NVAR + 1, 1);
    EXPECT(!memcmp(c.starts, starts, sizeof starts) && c.rows[0] == 0 && same(c.values, &p, 1));
    EXPECT(same(one_list(net, socwr_program_q, Q_NVAR), q, Q_NVAR));
    EXPECT(same(one_list(net, socwr_program_b, Q_NCON), b, Q_NCON));
}

/* An active capability: four entries and four bounds. */
static void capability(void) {
    static const double bounds[4] = {5.0, 1.0, 6.0, 2.0};
    network net = program(1, 1, -1.0, 1.0, 1.5);
    columns a = by_columns(net, socwr_program_a, Q_NVAR + 1, ENTRIES + 4);
    EXPECT(value_at(a, 12, 0) == 1.0 && value_at(a, 13, 0) == -1.0 && value_at(a, 14, 1) == 1.0 && value_at(a, 15, 1) == -1.0);
    EXPECT(same(one_list(net, socwr_program_b, Q_NCON) + 12, bounds, 4));
}

/* H, and bounds beside it: rows are empty with b 1 only where both are at or beyond π. */
static void angles(double angmin, double angmax, int empty) {
    network net = program(3, 0, angmin, angmax, 1.5);
    columns a = by_columns(net, socwr_program_a, Q_NVAR + 1, ENTRIES + (empty ? 0 : 4));
    const double *b = one_list(net, socwr_program_b, Q_NCON);
    double one = empty ? 0.0 : 1.0, tangent = empty ? 0.0 : 1.5, side = empty ? 1.0 : 0.0;
    EXPECT(value_at(a, 16, 5) == one && value_at(a, 16, 4) == -tangent);
    EXPECT(value_at(a, 17, 5) == -one && value_at(a, 17, 4) == -tangent);
    EXPECT(same(b + 16, &side, 1) && same(b + 17, &side, 1));
}

static void example_h(void) {
    angles(-pi, pi, 1);
    angles(-above, above, 1);
    angles(-INFINITY, INFINITY, 1);
    angles(-below, pi, 0);
    angles(-pi, below, 0);
    angles(NAN, pi, 0);
    angles(-pi, NAN, 0);
    /* Tangents that vanish leave the entries of wi. */
    by_columns(program(3, 0, -1.0, 1.0, 0.0), socwr_program_a, Q_NVAR + 1, ENTRIES + 2);
}

/* Tap 0: what is no number is kept. With all floats 0 the ends and the balances have no entry of w. */
static void tap_zero(void) {
    make_program(1, 0, -1.0, 1.0, 1.5);
    memset(record(2) + 64, 0, 8);
    columns a = by_columns(lent(2, 1, 1, 0), socwr_program_a, Q_NVAR + 1, ENTRIES);
    EXPECT(isnan(value_at(a, 4, 4)) && value_at(a, 4, 2) == -INFINITY);
    a = by_columns(q(1), socwr_program_a, Q_NVAR + 1, 30);
    EXPECT(isnan(value_at(a, 4, 2)) && isnan(value_at(a, 7, 5)) && value_at(a, 6, 3) == 0.0);
}

/* Example D with slopes 1, 0, 2 and intercepts -1, 4, -0.0. */
static network make_piecewise(void) {
    static const double plain[7] = {0.0, 0.0, 0.0, 0.0, -0.0, -0.0, 2.0}, line[3][2] = {{1.0, -1.0}, {0.0, 4.0}, {2.0, -0.0}};
    piecewise(3);
    put_floats(1, plain, 7);
    for (uint64_t i = 0; i < 3; i++) put_floats(3 + i, line[i], 2);
    return lent(1, 0, 2, 3);
}

static void example_d(void) {
    static const uint32_t starts[7] = {0, 1, 4, 5, 6, 6, 9}, rows[9] = {0, 0, 12, 14, 1, 1, 12, 13, 14};
    static const double values[9] = {1.0, 1.0, 1.0, 2.0, 1.0, 1.0, -1.0, -1.0, -1.0};
    static const double q[6] = {0.0, 0.0, 0.0, 0.0, 0.0, 1.0}, sides[3] = {1.0, -4.0, 0.0};
    network net = make_piecewise();
    columns a = by_columns(net, socwr_program_a, 7, 9);
    EXPECT(!memcmp(a.starts, starts, sizeof starts) && !memcmp(a.rows, rows, sizeof rows) && same(a.values, values, 9));
    /* A zero is dropped, and the sum in q starts at 0.0. */
    by_columns(net, socwr_program_p, 7, 0);
    EXPECT(same(one_list(net, socwr_program_q, 6), q, 6));
    EXPECT(same(one_list(net, socwr_program_b, 15) + 12, sides, 3));
}

/* A piecewise generator with cq and cl: the program minimises cq p² + cl p + t, the cost read is the segment's alone. */
static void two_costs(void) {
    static const double costs[7] = {0.0, 0.0, 0.0, 0.0, 1.0, 2.0, 0.0}, slope = 3.0, p = 2.0;
    static const double q[4] = {2.0, 0.0, 0.0, 1.0}, at_one[4] = {1.0, 0.0, 0.0, 3.0};
    put(0, 1, 0, 0, 0, 0);
    put(1, 3, 2, 1, 0, 0);
    put(2, 4, 0, 0, 0, 0);
    put_floats(1, costs, 7);
    put_floats(2, &slope, 1);
    network net = lent(1, 0, 1, 1);
    columns c = by_columns(net, socwr_program_p, 5, 1);
    EXPECT(c.rows[0] == 0 && c.starts[1] == 1 && same(c.values, &p, 1));
    EXPECT(same(one_list(net, socwr_program_q, 4), q, 4));
    const double *x = lend_read(at_one, sizeof at_one);
    EXPECT(scalar(socwr_objective(NET(net), SOCWR_NETWORK_GENERATOR_COST, x, 4, 9.0), 0, 0, 3.0));
}

/* C: no column and no row, but one start. */
static void example_c(void) {
    static const uint32_t zero = 0;
    network none = lent(0, 0, 0, 0);
    columns c = by_columns(none, socwr_program_a, 1, 0);
    EXPECT(!memcmp(c.starts, &zero, 4));
    c = blank(1, 0, 0);
    EXPECT(is(socwr_program_p(NET(none), c.starts, 1, NULL, 0, NULL, 0), 0, 0) && !memcmp(c.starts, &zero, 4));
    EXPECT(is(socwr_program_q(NET(none), NULL, 0), 0, 0) && is(socwr_program_b(NET(none), NULL, 0), 0, 0));
    EXPECT(is(socwr_reading_check(NET(none), NULL, 0, NULL, 0), 0, 0));
    EXPECT(is(socwr_prices(NET(none), NULL, 0, NULL, 0), 0, 0));
    EXPECT(scalar(socwr_objective(NET(none), SOCWR_NETWORK_GENERATOR_COST, NULL, 0, 1.0), 0, 0, -0.0));
    EXPECT(scalar(socwr_objective(NET(none), SOCWR_FEASIBILITY, NULL, 0, 1.0), 0, 0, 0.0));
}

/* A vector whose element i is i + 1, lent for reading. */
static const double *counted(uint64_t count) {
    double all[64];
    for (uint64_t i = 0; i < count; i++) all[i] = (double)(i + 1);
    return lend_read(all, 8 * count);
}

static void prices(void) {
    static const double want[4] = {-1.0, -2.0, -3.0, -4.0};
    network net = program(1, 0, -1.0, 1.0, 1.5);
    const double *z = counted(Q_NCON);
    double *out = blank64(4), *longer = blank64(6), *few = blank64(3);
    EXPECT(is(socwr_prices(NET(net), z, Q_NCON, out, 4), 0, 4) && same(out, want, 4));
    EXPECT(is(socwr_prices(NET(net), z, Q_NCON, longer, 6), 0, 4) && same(longer, want, 4) && untouched(longer + 4, 16));
    EXPECT(is(socwr_prices(NET(net), z, Q_NCON, few, 3), 10, 4) && untouched(few, 24));
    EXPECT(is(socwr_prices(NET(net), z, Q_NCON, NULL, 0), 10, 4));
    EXPECT(is(socwr_prices(NET(net), z + 1, Q_NCON - 1, few, 3), 6, 1) && untouched(few, 24));
    EXPECT(is(socwr_prices(NET(net), counted(Q_NCON + 1), Q_NCON + 1, few, 3), 6, 1) && untouched(few, 24));
}

static void reading_check(void) {
    network net = program(1, 0, -1.0, 1.0, 1.5);
    const double *x = counted(Q_NVAR), *z = counted(Q_NCON);
    EXPECT(is(socwr_reading_check(NET(net), x, Q_NVAR, z, Q_NCON), 0, 0));
    EXPECT(is(socwr_reading_check(NET(net), x + 1, Q_NVAR - 1, z, Q_NCON), 6, 0));
    EXPECT(is(socwr_reading_check(NET(net), x, Q_NVAR, z + 1, Q_NCON - 1), 6, 1));
    EXPECT(is(socwr_reading_check(NET(net), NULL, 0, NULL, 0), 6, 0));
    EXPECT(is(socwr_reading_check(NET(net), x, Q_NVAR, counted(Q_NCON + 1), Q_NCON + 1), 6, 1));
    /* The parts of x. */
    static const double first[9] = {1.0, 2.0, 3.0, 5.0, 6.0, 7.0, 8.0, 9.0, 10.0};
    for (uint64_t block = SOCWR_COLUMN_PG; block <= SOCWR_COLUMN_QT; block++) {
        EXPECT(x[socwr_column_number(NET(net), block, 0).value] == first[block]);
    }
}

static void objective(void) {
    static const uint64_t far[4] = {3, (uint64_t)1 << 32, (uint64_t)1 << 63, UINT64_MAX};
    network net = program(1, 0, -1.0, 1.0, 1.5);
    const double *x = counted(Q_NVAR), *two = counted(6);
    EXPECT(scalar(socwr_objective(NET(net), SOCWR_FEASIBILITY, x, Q_NVAR, 9.0), 0, 0, 0.0));
    EXPECT(scalar(socwr_objective(NET(net), SOCWR_NETWORK_GENERATOR_COST, x, Q_NVAR, 9.0), 0, 0, 21.0));
    EXPECT(scalar(socwr_objective(NET(net), SOCWR_OTHER_OBJECTIVE, x, Q_NVAR, -0.0), 0, 0, -0.0));
    for (int i = 0; i < 4; i++) {
        EXPECT(scalar(socwr_objective(NET(net), far[i], x, Q_NVAR, 9.0), 7, far[i], 0.0));
        EXPECT(scalar(socwr_objective(NET(net), far[i], x + 1, Q_NVAR - 1, 9.0), 6, 0, 0.0));
    }
    for (uint64_t code = 0; code < 3; code++) {
        EXPECT(scalar(socwr_objective(NET(net), code, x + 1, Q_NVAR - 1, 9.0), 6, 0, 0.0));
        EXPECT(scalar(socwr_objective(NET(net), code, counted(Q_NVAR + 1), Q_NVAR + 1, 9.0), 6, 0, 0.0));
    }
    /* 2 for the plain generator; the largest of 1, 4 and 4 at 2. */
    EXPECT(scalar(socwr_objective(NET(make_piecewise()), SOCWR_NETWORK_GENERATOR_COST, two, 6, 9.0), 0, 0, 6.0));
    /* No segments. */
    EXPECT(scalar(socwr_objective(NET(piecewise(0)), SOCWR_NETWORK_GENERATOR_COST, two, 6, 9.0), 0, 0, -INFINITY));
}

/* Every entry refuses the network alike, and leaves what it was lent alone. */
static void all_refuse(network net, uint64_t number, uint64_t value) {
    columns c = blank(Q_NVAR + 1, 2 * ENTRIES, 2 * ENTRIES);
    const double *x = counted(Q_NVAR), *z = counted(Q_NCON);
    EXPECT(is(socwr_program_p(NET(net), OUT(c)), number, value) && left_alone(c, 0, 0));
    EXPECT(is(socwr_program_a(NET(net), OUT(c)), number, value) && left_alone(c, 0, 0));
    EXPECT(is(socwr_program_a(NET(net), NULL, 0, NULL, 0, NULL, 0), number, value));
    EXPECT(is(socwr_program_q(NET(net), c.values, c.values_len), number, value));
    EXPECT(is(socwr_program_b(NET(net), c.values, c.values_len), number, value));
    EXPECT(is(socwr_program_b(NET(net), NULL, 0), number, value));
    EXPECT(is(socwr_prices(NET(net), z, Q_NCON, c.values, c.values_len), number, value) && left_alone(c, 0, 0));
    EXPECT(is(socwr_prices(NET(net), NULL, 0, NULL, 0), number, value));
    EXPECT(is(socwr_reading_check(NET(net), x, Q_NVAR, z, Q_NCON), number, value));
    EXPECT(is(socwr_reading_check(NET(net), NULL, 0, NULL, 0), number, value));
    EXPECT(scalar(socwr_objective(NET(net), 1, x, Q_NVAR, 9.0), number, value, 0.0));
    EXPECT(scalar(socwr_objective(NET(net), UINT64_MAX, NULL, 0, 9.0), number, value, 0.0));
}

/* Q's program with one byte of one record changed. */
static network spoilt(uint64_t at, int offset, int value) {
    make_program(1, 0, -1.0, 1.0, 1.5);
    record(at)[offset] = (uint8_t)value;
    return lent(2, 1, 1, 0);
}

/* 1 to 5, and the sum. */
static void refusals(void) {
    static const uint64_t far[3] = {8193, (uint64_t)1 << 57, UINT64_MAX};
    for (int i = 0; i < 3; i++) {
        network net = program(1, 0, -1.0, 1.0, 1.5);
        net.m = far[i];
        all_refuse(net, 1, 1);
        net.n = far[i];
        all_refuse(net, 1, 0);
    }
    network net = program(1, 0, -1.0, 1.0, 1.5);
    net.s = 1;
    all_refuse(net, 2, 512);
    net.s = 0, net.length = 511, net.records++;
    all_refuse(net, 2, 511);
    all_refuse(spoilt(0, 0, 2), 3, 0);
    all_refuse(spoilt(3, 127, 128), 3, 3);
    all_refuse(spoilt(2, 8, 2), 4, 2);
    all_refuse(spoilt(3, 8, 2), 4, 3);
    all_refuse(spoilt(2, 8, 1), 5, 2);
    make_program(1, 2, -1.0, 1.0, 1.5);
    record(3)[2] = 1;
    all_refuse(lent(2, 1, 1, 0), 3, 4);
}

static void all(void) {
    a_of_q();
    p_q_b_of_q();
    capability();
    example_h();
    tap_zero();
    example_d();
    two_costs();
    example_c();
    prices();
    reading_check();
    objective();
    refusals();
}

int main(void) {
    return run("program and reading", all);
}

/* Columns, selectors, lengths and ids from C: example K, a column of each kind, every cause in its order. */
#include "solution.h"

#define Q_DIM (Q_NVAR + Q_NCON)

/* Q at x 1, 2, .. and z 101, 102, .. */
static solution at_q(void) {
    double x[Q_NVAR], z[Q_NCON];
    for (int i = 0; i < Q_NVAR; i++) x[i] = i + 1;
    for (int i = 0; i < Q_NCON; i++) z[i] = i + 101;
    return lent_at(x, Q_NVAR, z, Q_NCON);
}

/* A column holds these values from a place on, and those at another; the rest is +0.0. */
typedef struct part {
    uint64_t place, count;
    double values[6];
} part;

static void column(network net, solution at, uint64_t parameter, uint64_t index, part a, part b) {
    double want[Q_DIM] = {0};
    for (uint64_t i = 0; i < a.count; i++) want[a.place + i] = a.values[i];
    for (uint64_t i = 0; i < b.count; i++) want[b.place + i] = b.values[i];
    double *out = blank64(Q_DIM);
    EXPECT(is(socwr_parameter_jacobian(NET(net), AT(at), parameter, index, out, Q_DIM), 0, Q_DIM));
    EXPECT(!memcmp(out, want, sizeof want));
    double *more = blank64(Q_DIM + 2);
    EXPECT(is(socwr_parameter_jacobian(NET(net), AT(at), parameter, index, more, Q_DIM + 2), 0, Q_DIM));
    EXPECT(!memcmp(more, want, sizeof want) && untouched(more + Q_DIM, 16));
    double *few = blank64(Q_DIM - 1);
    EXPECT(is(socwr_parameter_jacobian(NET(net), AT(at), parameter, index, few, Q_DIM - 1), 10, Q_DIM));
    EXPECT(untouched(few, 8 * (Q_DIM - 1)));
    EXPECT(is(socwr_parameter_jacobian(NET(net), AT(at), parameter, index, NULL, 0), 10, Q_DIM));
}

static const part none;

/* K. */
static void example_k(void) {
    static const part pf = {Q_NVAR + 4, 1, {0.25}}, pt = {Q_NVAR + 6, 1, {0.5}};
    static double x[Q_NVAR], z[Q_NCON];
    x[2] = x[4] = 1.0;
    column(q_tapped(2.0), lent_at(x, Q_NVAR, z, Q_NCON), SOCWR_SERIES_CONDUCTANCE, 0, pf, pt);
}

/* A column of each kind on Q. */
static void each_kind(void) {
    network net = q_tapped(2.0), unlimited = q(0);
    solution at = at_q();
    double z[22] = {0};
    column(net, at, SOCWR_DEMAND_ACTIVE, 1, (part){Q_NVAR + 1, 1, {-1.0}}, none);
    column(net, at, SOCWR_DEMAND_REACTIVE, 0, (part){Q_NVAR + 2, 1, {-1.0}}, none);
    column(net, at, SOCWR_COST_QUADRATIC, 0, (part){0, 1, {2.0}}, none);
    column(net, at, SOCWR_COST_LINEAR, 0, (part){0, 1, {1.0}}, none);
    column(net, at, SOCWR_LINE_LIMIT, 0, (part){Q_NVAR + 22, 6, {123, 124, 125, 126, 127, 128}}, none);
    column(net, at, SOCWR_SHUNT_CONDUCTANCE, 1, (part){3, 1, {-102.0}}, (part){Q_NVAR + 1, 1, {-4.0}});
    column(net, at, SOCWR_SHUNT_SUSCEPTANCE, 1, (part){3, 1, {104.0}}, (part){Q_NVAR + 3, 1, {4.0}});
    column(net, at, SOCWR_VOLTAGE_MIN, 1, (part){Q_NVAR + 11, 1, {-112.0}}, none);
    column(net, at, SOCWR_VOLTAGE_MAX, 0, (part){Q_NVAR + 8, 1, {109.0}}, none);
    column(net, at, SOCWR_GEN_ACTIVE_MIN, 0, (part){Q_NVAR + 13, 1, {-114.0}}, none);
    column(net, at, SOCWR_GEN_ACTIVE_MAX, 0, (part){Q_NVAR + 12, 1, {113.0}}, none);
    column(net, at, SOCWR_GEN_REACTIVE_MIN, 0, (part){Q_NVAR + 15, 1, {-116.0}}, none);
    column(net, at, SOCWR_GEN_REACTIVE_MAX, 0, (part){Q_NVAR + 14, 1, {115.0}}, none);
    /* Series susceptance: the w, wr and wi columns, then the four Ohm rows. */
    column(net, at, SOCWR_SERIES_SUSCEPTANCE, 0, (part){2, 4, {26.5, 108.0, -107.0, -1.0}},
           (part){Q_NVAR + 4, 4, {3.0, -1.75, -3.0, 1.5}});
    double *out = blank64(32);
    solution short_z = lent_at(z, Q_NVAR, z, 22);
    EXPECT(is(socwr_parameter_jacobian(NET(unlimited), AT(short_z), SOCWR_LINE_LIMIT, 0, out, 32), 0, 32));
    for (int i = 0; i < 32; i++) EXPECT(out[i] == 0.0);
}

/* Lengths of all codes on a network with unlike counts, and codes that SOCWR lacks or that name nothing. */
static void lengths(void) {
    static const uint64_t parameters[15] = {2, 2, 1, 1, 3, 3, 3, 2, 2, 2, 2, 1, 1, 1, 1};
    static const uint64_t operands[13] = {2, 2, 1, 1, 3, 3, 3, 3, 0, 0, 2, 3, 3};
    static const uint64_t far[4] = {19, (uint64_t)1 << 32, (uint64_t)1 << 63, UINT64_MAX};
    put(0, 1, 0, 0, 0, 0);
    put(1, 1, 0, 0, 0, 0);
    for (uint64_t e = 2; e < 5; e++) put(e, 2, 0, 0, 1, 0);
    put(5, 3, 0, 0, 0, 0);
    network net = lent(2, 3, 1, 0);
    for (uint64_t p = 0; p < 15; p++) EXPECT(is(socwr_parameter_len(NET(net), p), 0, parameters[p]));
    for (uint64_t p = 15; p < 19; p++) EXPECT(is(socwr_parameter_len(NET(net), p), 9, 0));
    for (uint64_t o = 0; o < 13; o++) {
        int lacks = o == SOCWR_VOLTAGE_MAGNITUDE || o == SOCWR_VOLTAGE_ANGLE;
        EXPECT(is(socwr_operand_len(NET(net), o), lacks ? 9 : 0, operands[o]));
    }
    for (int i = 0; i < 4; i++) {
        EXPECT(is(socwr_parameter_len(NET(net), far[i]), 9, 0));
        EXPECT(is(socwr_operand_len(NET(net), far[i]), 9, 0));
    }
    EXPECT(is(socwr_operand_len(NET(net), 13), 9, 0));
}

/* A selector's four lists. */
typedef struct lists {
    uint32_t *starts, *rows, *elements;
    double *weights;
    uint64_t len[4];
} lists;

static lists blank(uint64_t starts, uint64_t rows, uint64_t weights, uint64_t elements) {
    lists out = {blank32(starts), blank32(rows), blank32(elements), blank64(weights), {starts, rows, weights, elements}};
    return out;
}

static socwr_selector call(network net, uint64_t operand, lists out) {
    return socwr_operand_selector(NET(net), operand, out.starts, out.len[0], out.rows, out.len[1], out.weights, out.len[2],
                                  out.elements, out.len[3]);
}

static int turned_away(socwr_selector got, uint64_t number, uint64_t value, lists out) {
    return got.number == number && got.value == value && got.sign == 0.0 && untouched(out.starts, 4 * out.len[0]) &&
           untouched(out.rows, 4 * out.len[1]) && untouched(out.weights, 8 * out.len[2]) &&
           untouched(out.elements, 4 * out.len[3]);
}

/* Consecutive rows from the first on. */
static void selector(network net, uint64_t operand, uint64_t items, uint32_t first, double sign) {
    lists out = blank(items + 1, items, items, items);
    socwr_selector got = call(net, operand, out);
    EXPECT(!got.number && got.value == items && got.sign == sign);
    for (uint32_t i = 0; i < items; i++) {
        EXPECT(out.starts[i] == i && out.rows[i] == first + i && out.weights[i] == 1.0 && out.elements[i] == i);
    }
    EXPECT(out.starts[items] == items);
    for (int i = 0; i < 4; i++) {
        lists few = blank(items + 1 - (i == 0), items - (i == 1), items - (i == 2), items - (i == 3));
        EXPECT(turned_away(call(net, operand, few), 10, items + (i == 0), few));
    }
    lists empty = blank(0, 0, 0, 0);
    EXPECT(turned_away(call(net, operand, empty), 10, items + 1, empty));
    lists more = blank(items + 3, items + 2, items + 1, items + 4);
    EXPECT(call(net, operand, more).value == items);
    EXPECT(untouched(more.starts + items + 1, 8) && untouched(more.rows + items, 8));
    EXPECT(untouched(more.weights + items, 8) && untouched(more.elements + items, 16));
}

static void selectors(void) {
    network net = q(1), nothing = {0, 0, 0, 0, NULL, 0};
    selector(net, SOCWR_PRICE_ACTIVE, 2, Q_NVAR, -1.0);
    selector(net, SOCWR_PRICE_REACTIVE, 2, Q_NVAR + 2, -1.0);
    selector(net, SOCWR_DISPATCH_ACTIVE, 1, 0, 1.0);
    selector(net, SOCWR_DISPATCH_REACTIVE, 1, 1, 1.0);
    selector(net, SOCWR_FLOW_ACTIVE_FROM, 1, 6, 1.0);
    selector(net, SOCWR_FLOW_ACTIVE_TO, 1, 7, 1.0);
    selector(net, SOCWR_FLOW_REACTIVE_FROM, 1, 8, 1.0);
    selector(net, SOCWR_FLOW_REACTIVE_TO, 1, 9, 1.0);
    selector(net, SOCWR_VOLTAGE_SQUARED, 2, 2, 1.0);
    selector(net, SOCWR_VOLTAGE_PRODUCT_REAL, 1, 4, 1.0);
    selector(net, SOCWR_VOLTAGE_PRODUCT_IMAG, 1, 5, 1.0);
    lists out = blank(4, 4, 4, 4), none_lent = blank(0, 0, 0, 0), one = blank(1, 0, 0, 0);
    EXPECT(turned_away(call(net, SOCWR_VOLTAGE_MAGNITUDE, out), 9, 0, out));
    EXPECT(turned_away(call(net, SOCWR_VOLTAGE_ANGLE, none_lent), 9, 0, none_lent));
    EXPECT(turned_away(call(net, 13, out), 9, 0, out));
    EXPECT(turned_away(call(net, UINT64_MAX, out), 9, 0, out));
    net.k = 4097;
    EXPECT(turned_away(call(net, UINT64_MAX, out), 1, 2, out));
    socwr_selector got = call(nothing, SOCWR_PRICE_ACTIVE, one);
    EXPECT(!got.number && !got.value && got.sign == -1.0 && one.starts[0] == 0);
}

/* Ids, the constraint axis, codes before indices. */
static void ids(void) {
    static const uint64_t far[3] = {(uint64_t)1 << 32, (uint64_t)1 << 63, UINT64_MAX};
    network net = q(1);
    EXPECT(is(socwr_element_id(NET(net), SOCWR_AXIS_BUS, 0), 0, 1));
    EXPECT(is(socwr_element_id(NET(net), SOCWR_AXIS_BUS, 1), 0, 2));
    EXPECT(is(socwr_element_id(NET(net), SOCWR_AXIS_BRANCH, 0), 0, 3));
    EXPECT(is(socwr_element_id(NET(net), SOCWR_AXIS_GENERATOR, 0), 0, 4));
    EXPECT(is(socwr_element_id(NET(net), SOCWR_AXIS_BUS, 2), 7, 2));
    EXPECT(is(socwr_element_id(NET(net), SOCWR_AXIS_BRANCH, 1), 7, 1));
    EXPECT(is(socwr_element_id(NET(net), SOCWR_AXIS_GENERATOR, 1), 7, 1));
    EXPECT(is(socwr_element_id(NET(net), SOCWR_AXIS_CONSTRAINT, 0), 0, 0));
    EXPECT(is(socwr_element_id(NET(net), 4, 77), 7, 4));
    for (int i = 0; i < 3; i++) {
        EXPECT(is(socwr_element_id(NET(net), SOCWR_AXIS_CONSTRAINT, far[i]), 0, far[i]));
        EXPECT(is(socwr_element_id(NET(net), SOCWR_AXIS_BUS, far[i]), 7, far[i]));
        EXPECT(is(socwr_element_id(NET(net), far[i], 0), 7, far[i]));
    }
    net.length--;
    EXPECT(is(socwr_element_id(NET(net), SOCWR_AXIS_CONSTRAINT, 9), 2, 511));
    EXPECT(is(socwr_element_id(NET(net), 4, 9), 2, 511));
}

static void refuses(network net, solution at, uint64_t parameter, uint64_t index, uint64_t number, uint64_t value) {
    double *out = blank64(64);
    EXPECT(is(socwr_parameter_jacobian(NET(net), AT(at), parameter, index, out, 64), number, value));
    EXPECT(untouched(out, 8 * 64));
    EXPECT(is(socwr_parameter_jacobian(NET(net), AT(at), parameter, index, NULL, 0), number, value));
}

/* 1 to 6, 9, 7, 8: each before the next, and all before 10. */
static void causes(void) {
    static const double floats[Q_NCON];
    network net = piecewise(3), spoilt = piecewise(3);
    solution at = lent_at(floats, 6, floats, 15), no_x = lent_at(floats, 5, floats, 14), no_z = lent_at(floats, 6, floats, 16);
    refuses(net, at, SOCWR_COST_QUADRATIC, 1, 8, 3);
    refuses(net, at, SOCWR_COST_LINEAR, 1, 8, 3);
    refuses(net, at, SOCWR_COST_LINEAR, 2, 7, 2);
    refuses(net, at, SOCWR_LINE_LIMIT, 0, 7, 0);
    refuses(net, at, SOCWR_DEMAND_ACTIVE, UINT64_MAX, 7, UINT64_MAX);
    refuses(net, at, SOCWR_DEMAND_ACTIVE, (uint64_t)1 << 32, 7, (uint64_t)1 << 32);
    for (uint64_t p = SOCWR_TRANSFORMER_RATIO; p < 21; p++) refuses(net, at, p, 99, 9, 0);
    refuses(net, at, UINT64_MAX, 99, 9, 0);
    refuses(net, no_z, SOCWR_SWITCHING, 99, 6, 1);
    refuses(net, no_z, SOCWR_COST_LINEAR, 1, 6, 1);
    refuses(net, no_x, 20, 99, 6, 0);
    spoilt.s = 65537;
    refuses(spoilt, no_x, 20, 99, 1, 3);
    spoilt.s = 2;
    refuses(spoilt, no_x, 20, 99, 2, 768);
    record(2)[2] = 2;
    spoilt = lent(1, 0, 2, 3);
    refuses(spoilt, no_x, 20, 99, 3, 6);
    EXPECT(is(socwr_parameter_len(NET(spoilt), 20), 3, 6) && is(socwr_operand_len(NET(spoilt), 20), 3, 6));
    put_number(1, 8, 1);
    refuses(lent(1, 0, 2, 3), no_x, 20, 99, 4, 1);
    make_q(1);
    put_number(2, 12, 0);
    refuses(lent(2, 1, 1, 0), no_x, 20, 99, 5, 2);
}

static void all(void) {
    example_k();
    each_kind();
    lengths();
    selectors();
    ids();
    causes();
}

int main(void) {
    return run("columns", all);
}

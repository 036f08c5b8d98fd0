/* The KKT entries from C: example F, Q's whole list, every cause, and outputs of every length. */
#include "solution.h"

/* The entries' outputs. */
typedef struct entries {
    uint32_t *rows, *cols;
    double *values;
    uint64_t rows_len, cols_len, values_len;
} entries;

static entries blank(uint64_t rows, uint64_t cols, uint64_t values) {
    entries out = {blank32(rows), blank32(cols), blank64(values), rows, cols, values};
    return out;
}

static socwr_answer call(network net, solution at, entries out) {
    return socwr_kkt_entries(NET(net), AT(at), out.rows, out.rows_len, out.cols, out.cols_len, out.values, out.values_len);
}

static int left_alone(entries out) {
    return untouched(out.rows, 4 * out.rows_len) && untouched(out.cols, 4 * out.cols_len) &&
           untouched(out.values, 8 * out.values_len);
}

/* Q at x 0 and at a z that is 1 at the first and the last row of its four-row cone. */
static solution at_f(void) {
    static double x[Q_NVAR], z[Q_NCON];
    z[18] = z[21] = 1.0;
    return lent_at(x, Q_NVAR, z, Q_NCON);
}

/* F: what row 28 has in columns 2 and 3. */
static void example_f(void) {
    static const double want[2][2] = {{0.5, 0.5}, {0.5, -0.5}};
    network net = q(1);
    entries out = blank(128, 128, 128);
    socwr_answer got = call(net, at_f(), out);
    EXPECT(!got.number && got.value <= 128);
    int seen[2] = {0, 0};
    for (uint64_t i = 0; i < got.value; i++) {
        EXPECT(out.rows[i] < Q_NVAR + Q_NCON && out.cols[i] < Q_NVAR + Q_NCON);
        if (out.rows[i] != 28 || out.cols[i] < 2 || out.cols[i] > 3) continue;
        int c = (int)out.cols[i] - 2;
        EXPECT(seen[c] < 2 && out.values[i] == want[c][seen[c]]);
        seen[c]++;
    }
    EXPECT(seen[0] == 2 && seen[1] == 2);
    EXPECT(untouched(out.rows + got.value, 4 * (128 - got.value)));
    EXPECT(untouched(out.values + got.value, 8 * (128 - got.value)));
}

/* The first and the last entries of Q with tap 2: the turned balance rows, and the last cone. */
static void whole_list(void) {
    static const uint32_t rows[6] = {0, 6, 7, 1, 8, 9}, cols[6] = {10, 10, 11, 12, 12, 13};
    network net = q_tapped(2.0);
    entries out = blank(256, 256, 256);
    socwr_answer got = call(net, at_f(), out);
    EXPECT(!got.number && got.value > 6);
    for (int i = 0; i < 6; i++) {
        EXPECT(out.rows[i] == rows[i] && out.cols[i] == cols[i]);
        EXPECT(out.values[i] == (rows[i] < 2 ? 1.0 : -1.0));
    }
    for (uint64_t i = 0; i < got.value; i++) EXPECT(out.values[i] == out.values[i]);
}

/* Exactly enough; one short of each in turn; longer; empty. */
static void lengths(void) {
    network net = q_tapped(2.0);
    solution at = at_f();
    uint64_t need = call(net, at, blank(256, 256, 256)).value;
    entries all = blank(256, 256, 256), exact = blank(need, need, need);
    EXPECT(is(call(net, at, all), 0, need) && is(call(net, at, exact), 0, need));
    EXPECT(!memcmp(all.rows, exact.rows, 4 * need) && !memcmp(all.cols, exact.cols, 4 * need));
    EXPECT(!memcmp(all.values, exact.values, 8 * need));
    for (int i = 0; i < 3; i++) {
        entries few = blank(need - (i == 0), need - (i == 1), need - (i == 2));
        EXPECT(is(call(net, at, few), 10, need) && left_alone(few));
        entries one = blank(i == 0 ? 1 : 256, i == 1 ? 1 : 256, i == 2 ? 1 : 256);
        EXPECT(is(call(net, at, one), 10, need) && left_alone(one));
    }
    EXPECT(is(socwr_kkt_entries(NET(net), AT(at), NULL, 0, NULL, 0, NULL, 0), 10, need));
    entries more = blank(need + 1, need + 2, need + 3);
    EXPECT(is(call(net, at, more), 0, need) && !memcmp(more.values, exact.values, 8 * need));
    EXPECT(untouched(more.rows + need, 4) && untouched(more.cols + need, 8) && untouched(more.values + need, 24));
}

/* As long as a list may ever be: 10 n + 17 k + 82 m + 26 t; and one less. */
static void bound(void) {
    network net = q_tapped(2.0);
    solution at = at_f();
    uint64_t most = 10 * 2 + 17 + 82 + 26;
    entries exact = blank(most, most, most), less = blank(most - 1, most - 1, most - 1);
    socwr_answer got = call(net, at, exact), other = call(net, at, less);
    EXPECT(!got.number && got.value <= most && is(other, 0, got.value));
    EXPECT(!memcmp(exact.rows, less.rows, 4 * got.value) && !memcmp(exact.cols, less.cols, 4 * got.value));
    EXPECT(!memcmp(exact.values, less.values, 8 * got.value));
    EXPECT(untouched(exact.rows + got.value, 4 * (most - got.value)));
    EXPECT(untouched(exact.cols + got.value, 4 * (most - got.value)));
    EXPECT(untouched(exact.values + got.value, 8 * (most - got.value)));
}

/* D and E: 7 and 4 entries turned, 4 of the balance rows, 3 and 0 of the cost rows, 13 and 10 on the diagonal. */
static void segments(void) {
    static const double floats[15];
    entries out = blank(27, 27, 27);
    EXPECT(is(call(piecewise(3), lent_at(floats, 6, floats, 15), out), 0, 27));
    EXPECT(out.rows[26] == 20 && out.cols[26] == 20 && out.rows[25] == 20 && out.cols[25] == 5);
    EXPECT(is(call(piecewise(0), lent_at(floats, 6, floats, 12), blank(18, 18, 18)), 0, 18));
}

/* No network at all has no entries, and they fit anywhere. */
static void nothing(void) {
    network empty = {0, 0, 0, 0, NULL, 0};
    EXPECT(is(socwr_kkt_entries(NET(empty), NULL, 0, NULL, 0, NULL, 0, NULL, 0, NULL, 0), 0, 0));
    entries out = blank(3, 2, 1);
    solution none = lent_at(NULL, 0, NULL, 0);
    EXPECT(is(call(empty, none, out), 0, 0) && left_alone(out));
}

static void refuses(network net, solution at, uint64_t number, uint64_t value) {
    entries out = blank(200, 200, 200);
    EXPECT(is(call(net, at, out), number, value) && left_alone(out));
    EXPECT(is(call(net, at, blank(0, 0, 0)), number, value));
}

/* 1 to 6, each before the next. */
static void causes(void) {
    static const double floats[Q_NCON + 1];
    network net = q(1);
    for (uint64_t x = 0; x < Q_NVAR + 2; x++) {
        if (x != Q_NVAR) refuses(net, lent_at(floats, x, floats, 3), 6, 0);
    }
    for (uint64_t z = 0; z < Q_NCON + 2; z++) {
        if (z != Q_NCON) refuses(net, lent_at(floats, Q_NVAR, floats, z), 6, 1);
    }
    net.n = 4097;
    refuses(net, lent_at(floats, 1, floats, 1), 1, 0);
    net.n = 3;
    refuses(net, lent_at(floats, 1, floats, 1), 2, 512);
    make_q(1);
    record(2)[1] = 4;
    refuses(lent(2, 1, 1, 0), lent_at(floats, 1, floats, 1), 3, 2);
    make_q(1);
    put_number(3, 8, 2);
    refuses(lent(2, 1, 1, 0), lent_at(floats, 1, floats, 1), 4, 3);
    make_q(1);
    put_number(2, 8, 1);
    refuses(lent(2, 1, 1, 0), lent_at(floats, 1, floats, 1), 5, 2);
    make_q(1);
    record(3)[1] = 2;
    record(3)[2] = 1;
    refuses(lent(2, 1, 1, 0), lent_at(floats, 1, floats, 1), 3, 4);
}

static void all(void) {
    example_f();
    whole_list();
    lengths();
    bound();
    segments();
    nothing();
    causes();
}

int main(void) {
    return run("KKT entries", all);
}

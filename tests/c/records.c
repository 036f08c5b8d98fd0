/* Records and numbering from C: Q, the lettered examples A to E and I, and every cause. */
#include "network.h"

static int refused(socwr_name got, uint64_t number, uint64_t value) {
    return got.number == number && got.value == value && !got.block && !got.index && !got.place;
}

/* A row or column has this name, and the name that number. */
static void column(network net, uint64_t number, uint64_t block, uint64_t index) {
    socwr_name got = socwr_column_name(NET(net), number);
    EXPECT(!got.number && !got.value && got.block == block && got.index == index && !got.place);
    EXPECT(is(socwr_column_number(NET(net), block, index), 0, number));
}

static void row(network net, uint64_t number, uint64_t block, uint64_t index, uint64_t place) {
    socwr_name got = socwr_row_name(NET(net), number);
    EXPECT(!got.number && !got.value && got.block == block && got.index == index && got.place == place);
    EXPECT(is(socwr_row_number(NET(net), block, index, place), 0, number));
}

/* The cones into exactly enough, one short and longer. */
static void cones(network net, const uint32_t *want, uint64_t count) {
    uint32_t *out = (uint32_t *)(void *)lend(4 * count);
    EXPECT(is(socwr_cones(NET(net), out, count), 0, count));
    EXPECT(!memcmp(out, want, 4 * count));
    uint32_t *few = (uint32_t *)(void *)lend(4 * (count - 1));
    EXPECT(is(socwr_cones(NET(net), few, count - 1), 10, count));
    EXPECT(untouched(few, 4 * (count - 1)));
    EXPECT(is(socwr_cones(NET(net), NULL, 0), 10, count));
    uint32_t *more = (uint32_t *)(void *)lend(4 * (count + 3));
    EXPECT(is(socwr_cones(NET(net), more, count + 3), 0, count));
    EXPECT(!memcmp(more, want, 4 * count) && untouched(more + count, 12));
}

/* A: every name of Q. */
static void example_a(void) {
    static const uint64_t first[17] = {0, 2, 4, 5, 6, 7, 8, 10, 12, 13, 14, 15, 16, 17, 18, 18, 22};
    static const uint64_t rows[17] = {2, 2, 1, 1, 1, 1, 2, 2, 1, 1, 1, 1, 1, 1, 0, 4, 6};
    static const uint64_t column_first[10] = {0, 1, 2, 4, 5, 6, 7, 8, 9, 10};
    static const uint32_t lengths[5] = {8, 10, 4, 3, 3};
    network net = q(1);
    EXPECT(is(socwr_check_records(NET(net)), 0, 0));
    socwr_sizes sizes = socwr_layout_new(NET(net));
    EXPECT(!sizes.number && !sizes.value && sizes.n_eq == 8 && sizes.n_ineq == 10);
    EXPECT(sizes.nvar == 10 && sizes.ncon == 28 && sizes.t == 1 && sizes.cost_columns == 0);
    for (uint64_t b = 0; b < 17; b++) {
        for (uint64_t i = 0; i < rows[b]; i++) row(net, first[b] + i, b, b < 15 ? i : 0, b < 15 ? 0 : i);
    }
    for (uint64_t b = 0; b < 9; b++) {
        for (uint64_t i = column_first[b]; i < column_first[b + 1]; i++) column(net, i, b, i - column_first[b]);
    }
    cones(net, lengths, 5);
    EXPECT(is(socwr_column_number(NET(net), SOCWR_COLUMN_COST, 0), 0, SOCWR_NONE));
    EXPECT(is(socwr_row_number(NET(net), SOCWR_ROW_COST, 0, 0), 0, SOCWR_NONE));
    EXPECT(is(socwr_row_number(NET(net), SOCWR_ROW_COST, 0, 7), 0, SOCWR_NONE));
}

/* B: Q without limit. C: nothing at all. */
static void examples_b_c(void) {
    static const uint32_t lengths[3] = {8, 10, 4}, none[2] = {0, 0};
    network net = q(0);
    socwr_sizes sizes = socwr_layout_new(NET(net));
    EXPECT(!sizes.number && sizes.ncon == 22 && sizes.t == 0 && sizes.nvar == 10);
    EXPECT(is(socwr_row_number(NET(net), SOCWR_ROW_THERMAL, 0, 0), 0, SOCWR_NONE));
    EXPECT(is(socwr_row_number(NET(net), SOCWR_ROW_THERMAL, 0, 99), 0, SOCWR_NONE));
    cones(net, lengths, 3);
    network empty = {0, 0, 0, 0, NULL, 0};
    EXPECT(is(socwr_check_records(NET(empty)), 0, 0));
    sizes = socwr_layout_new(NET(empty));
    EXPECT(!sizes.number && !sizes.ncon && !sizes.nvar && !sizes.n_eq && !sizes.n_ineq);
    EXPECT(refused(socwr_row_name(NET(empty), 0), 7, 0));
    EXPECT(refused(socwr_column_name(NET(empty), 0), 7, 0));
    cones(empty, none, 2);
    empty = lent(0, 0, 0, 0);
    EXPECT(is(socwr_check_records(NET(empty)), 0, 0));
}

/* D and E: cost columns and rows. */
static void examples_d_e(void) {
    network net = piecewise(3);
    socwr_sizes sizes = socwr_layout_new(NET(net));
    EXPECT(!sizes.number && sizes.ncon == 15 && sizes.nvar == 6 && sizes.cost_columns == 1);
    column(net, 5, SOCWR_COLUMN_COST, 1);
    for (uint64_t i = 0; i < 3; i++) row(net, 12 + i, SOCWR_ROW_COST, 1, i);
    EXPECT(is(socwr_column_number(NET(net), SOCWR_COLUMN_COST, 0), 0, SOCWR_NONE));
    EXPECT(is(socwr_row_number(NET(net), SOCWR_ROW_COST, 1, 3), 7, 3));
    EXPECT(is(socwr_row_number(NET(net), SOCWR_ROW_COST, 2, 3), 7, 2));
    net = piecewise(0);
    sizes = socwr_layout_new(NET(net));
    EXPECT(!sizes.number && sizes.ncon == 12 && sizes.nvar == 6);
    column(net, 5, SOCWR_COLUMN_COST, 1);
    EXPECT(is(socwr_row_number(NET(net), SOCWR_ROW_COST, 1, 0), 7, 0));
    EXPECT(refused(socwr_row_name(NET(net), 12), 7, 12));
}

/* I: 4,096 buses pass, 4,097 do not. */
static void example_i(void) {
    uint64_t length = 4097 * SOCWR_RECORD_BYTES;
    uint8_t *buses = lend(length);
    memset(buses, 0, length);
    for (uint64_t i = 0; i < 4097; i++) buses[SOCWR_RECORD_BYTES * i] = 1;
    const uint8_t *end = buses + SOCWR_RECORD_BYTES;
    EXPECT(is(socwr_check_records(4096, 0, 0, 0, end, length - SOCWR_RECORD_BYTES), 0, 0));
    EXPECT(is(socwr_check_records(4097, 0, 0, 0, buses, length), 1, 0));
    EXPECT(is(socwr_check_records(4096, 0, 0, 0, buses, length), 2, length));
    EXPECT(is(socwr_row_number(4096, 0, 0, 0, end, length - SOCWR_RECORD_BYTES, SOCWR_ROW_WLB, 4095, 0), 0, 16383));
}

/* Every entry refuses the network alike, and the cones are left alone. */
static void all_refuse(network net, uint64_t number, uint64_t value) {
    uint32_t *out = (uint32_t *)(void *)lend(64);
    EXPECT(is(socwr_check_records(NET(net)), number, value));
    socwr_sizes sizes = socwr_layout_new(NET(net));
    EXPECT(sizes.number == number && sizes.value == value);
    EXPECT(!sizes.n_eq && !sizes.n_ineq && !sizes.nvar && !sizes.ncon && !sizes.t && !sizes.cost_columns);
    EXPECT(is(socwr_column_number(NET(net), 99, 99), number, value));
    EXPECT(is(socwr_row_number(NET(net), 0, 0, 0), number, value));
    EXPECT(refused(socwr_column_name(NET(net), 0), number, value));
    EXPECT(refused(socwr_row_name(NET(net), 1000), number, value));
    EXPECT(is(socwr_cones(NET(net), out, 16), number, value));
    EXPECT(is(socwr_cones(NET(net), NULL, 0), number, value));
    EXPECT(untouched(out, 64));
}

/* 1 and 2. */
static void counts_and_length(void) {
    static const uint64_t far[5] = {8193, 65537, (uint64_t)1 << 32, (uint64_t)1 << 63, UINT64_MAX};
    for (int i = 0; i < 5; i++) {
        network net = q(1);
        net.s = i ? far[i] : 65537;
        all_refuse(net, 1, 3);
        net.k = far[i];
        all_refuse(net, 1, 2);
        net.m = far[i];
        all_refuse(net, 1, 1);
        net.n = far[i];
        all_refuse(net, 1, 0);
    }
    network net = q(1);
    net.n += (uint64_t)1 << 57;
    all_refuse(net, 1, 0);
    for (uint64_t length = 0; length < 512; length += 1 + length / 7) {
        net = q(1);
        net.records += net.length - length;
        net.length = length;
        all_refuse(net, 2, length);
    }
    net = q(1);
    net.s = 1;
    all_refuse(net, 2, 512);
}

/* Q with one byte of one record changed. */
static network spoilt(uint64_t at, int offset, int value) {
    make_q(1);
    record(at)[offset] = (uint8_t)value;
    return lent(2, 1, 1, 0);
}

/* 3, 4, 5 and the sum. */
static void records(void) {
    static const int third[12][3] = {{0, 0, 2}, {1, 1, 2}, {0, 127, 1}, {1, 64, 128}, {2, 0, 1}, {2, 1, 4},
                                     {2, 3, 1}, {3, 1, 4}, {3, 2, 1}, {3, 12, 1}, {3, 72, 1}, {3, 127, 128}};
    for (int i = 0; i < 12; i++) all_refuse(spoilt((uint64_t)third[i][0], third[i][1], third[i][2]), 3, (uint64_t)third[i][0]);
    all_refuse(spoilt(2, 8, 2), 4, 2);
    all_refuse(spoilt(2, 15, 128), 4, 2);
    all_refuse(spoilt(3, 8, 2), 4, 3);
    all_refuse(spoilt(2, 8, 1), 5, 2);
    all_refuse(spoilt(2, 12, 0), 5, 2);
    make_q(1);
    record(3)[1] = 2;
    record(3)[2] = 1;
    all_refuse(lent(2, 1, 1, 0), 3, 4);
    put(4, 4, 0, 0, 0, 0);
    put(5, 4, 0, 0, 0, 0);
    all_refuse(lent(2, 1, 1, 2), 3, 6);
    put_number(4, 4, 1);
    all_refuse(lent(2, 1, 1, 1), 3, 4);
    put_number(4, 4, 0);
    EXPECT(is(socwr_check_records(2, 1, 1, 1, made, 5 * SOCWR_RECORD_BYTES), 0, 0));
}

/* 7: blocks, indices, places and numbers past the end. */
static void past_the_end(void) {
    static const uint64_t far[4] = {(uint64_t)1 << 32, ((uint64_t)1 << 32) + 1, (uint64_t)1 << 63, UINT64_MAX};
    network net = q(1);
    EXPECT(is(socwr_column_number(NET(net), 10, 77), 7, 10));
    EXPECT(is(socwr_row_number(NET(net), 17, 77, 88), 7, 17));
    EXPECT(is(socwr_column_number(NET(net), SOCWR_COLUMN_W, 2), 7, 2));
    EXPECT(is(socwr_row_number(NET(net), SOCWR_ROW_WUB, 2, 5), 7, 2));
    EXPECT(is(socwr_row_number(NET(net), SOCWR_ROW_WUB, 1, 5), 7, 5));
    EXPECT(is(socwr_row_number(NET(net), SOCWR_ROW_JABR, 0, 4), 7, 4));
    EXPECT(is(socwr_row_number(NET(net), SOCWR_ROW_THERMAL, 0, 6), 7, 6));
    EXPECT(refused(socwr_column_name(NET(net), 10), 7, 10));
    EXPECT(refused(socwr_row_name(NET(net), 28), 7, 28));
    for (int i = 0; i < 4; i++) {
        EXPECT(is(socwr_column_number(NET(net), far[i], 0), 7, far[i]));
        EXPECT(is(socwr_column_number(NET(net), SOCWR_COLUMN_PF, far[i]), 7, far[i]));
        EXPECT(is(socwr_row_number(NET(net), far[i], 0, 0), 7, far[i]));
        EXPECT(is(socwr_row_number(NET(net), SOCWR_ROW_THERMAL, far[i], 0), 7, far[i]));
        EXPECT(is(socwr_row_number(NET(net), SOCWR_ROW_THERMAL, 0, far[i]), 7, far[i]));
        EXPECT(refused(socwr_column_name(NET(net), far[i]), 7, far[i]));
        EXPECT(refused(socwr_row_name(NET(net), far[i]), 7, far[i]));
    }
}

static void all(void) {
    example_a();
    examples_b_c();
    examples_d_e();
    example_i();
    counts_and_length();
    records();
    past_the_end();
}

int main(void) {
    return run("records and numbering", all);
}

/* Networks as records. */
#ifndef NETWORK_H
#define NETWORK_H

#include "answer.h"

/* Room for the records that are being made. */
static uint8_t made[64 * SOCWR_RECORD_BYTES];

typedef struct network {
    uint64_t n, m, k, s;
    const uint8_t *records;
    uint64_t length;
} network;

/* The arguments that stand for a network. */
#define NET(net) (net).n, (net).m, (net).k, (net).s, (net).records, (net).length

static uint8_t *record(uint64_t at) {
    return made + SOCWR_RECORD_BYTES * at;
}

static void put_number(uint64_t at, int offset, uint32_t x) {
    for (int i = 0; i < 4; i++) record(at)[offset + i] = (uint8_t)(x >> (8 * i));
}

/* One record; what is not given is zero. */
static void put(uint64_t at, int kind, int flags, int count, uint32_t first, uint32_t second) {
    memset(record(at), 0, SOCWR_RECORD_BYTES);
    record(at)[0] = (uint8_t)kind;
    record(at)[1] = (uint8_t)flags;
    record(at)[2] = (uint8_t)count;
    put_number(at, 4, kind == 4 ? 0 : (uint32_t)at + 1);
    put_number(at, 8, first);
    put_number(at, 12, second);
}

/* The records that were made, lent for reading. */
static network lent(uint64_t n, uint64_t m, uint64_t k, uint64_t s) {
    network net = {n, m, k, s, NULL, SOCWR_RECORD_BYTES * (n + m + k + s)};
    net.records = lend_read(made, net.length);
    return net;
}

/* Document 01's Q, with the branch's flags as given. */
static void make_q(int flags) {
    put(0, 1, 0, 0, 0, 0);
    put(1, 1, 0, 0, 0, 0);
    put(2, 2, flags, 0, 0, 1);
    put(3, 3, 0, 0, 0, 0);
}

static inline network q(int flags) {
    make_q(flags);
    return lent(2, 1, 1, 0);
}

/* Example D and E: one bus, two generators, the second piecewise with so many segments. */
static inline network piecewise(int segments) {
    put(0, 1, 0, 0, 0, 0);
    put(1, 3, 0, 0, 0, 0);
    put(2, 3, 2, segments, 0, 0);
    for (int i = 0; i < segments; i++) put(3 + (uint64_t)i, 4, 0, 0, 0, 0);
    return lent(1, 0, 2, (uint64_t)segments);
}

#endif

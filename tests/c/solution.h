/* Floats of records, and the x and z of a solution. */
#ifndef SOLUTION_H
#define SOLUTION_H

#include "network.h"

/* Q's counts of columns and rows. */
#define Q_NVAR 10
#define Q_NCON 28

typedef struct solution {
    const double *x, *z;
    uint64_t x_len, z_len;
} solution;

/* The arguments that stand for a solution. */
#define AT(at) (at).x, (at).x_len, (at).z, (at).z_len

/* Float i of a record, little-endian. */
static inline void put_float(uint64_t at, int i, double x) {
    uint64_t bits;
    memcpy(&bits, &x, 8);
    for (int j = 0; j < 8; j++) record(at)[16 + 8 * i + j] = (uint8_t)(bits >> (8 * j));
}

/* Q with a branch of tap, cosine 1 and sine 0, limited. */
static inline network q_tapped(double tap) {
    make_q(1);
    put_float(2, 6, tap);
    put_float(2, 7, 1.0);
    return lent(2, 1, 1, 0);
}

/* x and z, lent for reading. */
static inline solution lent_at(const double *x, uint64_t x_len, const double *z, uint64_t z_len) {
    solution at = {lend_read(x, 8 * x_len), lend_read(z, 8 * z_len), x_len, z_len};
    return at;
}

#endif

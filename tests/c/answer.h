/* What an entry answers, and what it is lent to write. */
#ifndef ANSWER_H
#define ANSWER_H

#include "lend.h"
#include "socwr.h"

static inline int is(socwr_answer got, uint64_t number, uint64_t value) {
    return got.number == number && got.value == value;
}

static inline uint32_t *blank32(uint64_t count) {
    return (uint32_t *)(void *)lend(4 * count);
}

static inline double *blank64(uint64_t count) {
    return (double *)(void *)lend(8 * count);
}

/* Equal bits. */
static inline int same(const double *got, const double *want, uint64_t count) {
    return !memcmp(got, want, 8 * count);
}

#endif

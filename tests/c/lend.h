/* Memory that ends at an unmapped page, and a count of what was expected and did not hold.
   The proofs do not tell one NaN from another, so every test is run on memory full of NaNs too, compared by bits. */
#ifndef LEND_H
#define LEND_H

#include <stdint.h>
#include <stdio.h>
#include <stdlib.h>
#include <string.h>
#include <sys/mman.h>
#include <unistd.h>

static int held, failed;

/* One fact. */
static void expect(int fact, const char *what, int line) {
    held++;
    if (!fact) {
        failed++;
        printf("line %d: %s\n", line, what);
    }
}

#define EXPECT(fact) expect((fact), #fact, __LINE__)

/* Whether memory that nothing was written to holds NaNs, else bytes 0xa5. */
static int nans;

/* A NaN, quiet or signalling, of either sign; its payload depends on the place and ends in this bit. */
static uint64_t nan_bits(uint64_t place, uint64_t last) {
    uint64_t mixed = (place + 1) * 0x9e3779b97f4a7c15u;
    return ((mixed ^ mixed >> 31) & 0x800ffffffffffffcu) | 0x7ff0000000000002u | last;
}

/* What the eight bytes around an address hold before anything is written to them. */
static uint64_t blank_word(uintptr_t at) {
    return nans ? nan_bits(at / 8 % 512, 1) : 0xa5a5a5a5a5a5a5a5u;
}

/* The last maps that were lent. */
#define MAPS 16
static struct map {
    uint8_t *all;
    uint64_t bytes;
} maps[MAPS];
static uint64_t lends;

/* So many bytes whose end is the start of a page that may not be touched. */
static uint8_t *lend(uint64_t bytes) {
    uint64_t page = (uint64_t)sysconf(_SC_PAGESIZE);
    uint64_t room = (bytes + page - 1) / page * page;
    uint8_t *all = mmap(NULL, room + 2 * page, PROT_READ | PROT_WRITE, MAP_PRIVATE | MAP_ANONYMOUS, -1, 0);
    if (all == MAP_FAILED || mprotect(all, page, PROT_NONE) || mprotect(all + page + room, page, PROT_NONE)) {
        perror("mmap");
        exit(2);
    }
    maps[lends++ % MAPS] = (struct map){all, room + 2 * page};
    for (uint8_t *to = all + page; to < all + page + room; to += 8) {
        uint64_t word = blank_word((uintptr_t)to);
        memcpy(to, &word, 8);
    }
    return all + page + room - bytes;
}

/* Unmaps what was lent last, at most MAPS times. */
static inline void give_back(int times) {
    for (int i = 0; i < times; i++) {
        struct map last = maps[--lends % MAPS];
        munmap(last.all, last.bytes);
    }
}

/* A copy that ends so, and may only be read. */
static const void *lend_read(const void *from, uint64_t bytes) {
    uint64_t page = (uint64_t)sysconf(_SC_PAGESIZE);
    uint64_t room = (bytes + page - 1) / page * page;
    uint8_t *to = lend(bytes);
    if (bytes) {
        memcpy(to, from, bytes);
        if (mprotect(to + bytes - room, room, PROT_READ)) {
            perror("mprotect");
            exit(2);
        }
    }
    return to;
}

/* Whether the bytes are as lend left them. */
static int untouched(const void *lent, uint64_t bytes) {
    const uint8_t *at = lent;
    for (uint64_t i = 0; i < bytes; i++) {
        uint64_t word = blank_word((uintptr_t)(at + i));
        if (at[i] != ((const uint8_t *)&word)[(uintptr_t)(at + i) % 8]) return 0;
    }
    return 1;
}

/* Every fact on memory of bytes 0xa5, then on memory of NaNs. */
static int run(const char *name, void (*all)(void)) {
    for (nans = 0; nans < 2; nans++) all();
    printf("%s: %d facts, %d failed\n", name, held, failed);
    return failed != 0;
}

#endif

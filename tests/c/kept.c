/* The kept answers of entries that take lists (docs/VECTORS.md, kind 2) from C. Each NaN that is read has a payload of
   its own, and what a call leaves alone is compared by bits: the program vectors can tell neither. */
#include "network.h"

/* What the kept lists hold where nothing was written: numbers, and the bits of -1234.5. */
#define BLANK 0xa5a50000u
#define BLANK_FLOAT 0xc0934a0000000000u

/* The kept answers, and how much of them was read. */
static uint8_t *file;
static uint64_t size, read_to;

static const uint8_t *bytes(uint64_t count) {
    if (count > size - read_to) {
        printf("the kept answers end within a case\n");
        exit(2);
    }
    read_to += count;
    return file + read_to - count;
}

static uint64_t word(void) {
    const uint8_t *from = bytes(8);
    uint64_t x = 0;
    for (int i = 0; i < 8; i++) x |= (uint64_t)from[i] << (8 * i);
    return x;
}

static double as_float(uint64_t bits) {
    double x;
    memcpy(&x, &bits, 8);
    return x;
}

static int is_nan(uint64_t bits) {
    return (bits & INT64_MAX) > 0x7ff0000000000000u;
}

/* The next elements, lent for reading. */
static const uint32_t *next_numbers(uint64_t count) {
    static uint32_t list[1024];
    for (uint64_t i = 0; i < count; i++) list[i] = (uint32_t)word();
    return lend_read(list, 4 * count);
}

static const double *next_floats(uint64_t count) {
    static uint64_t list[1024];
    for (uint64_t i = 0; i < count; i++) {
        list[i] = word();
        if (is_nan(list[i])) list[i] = nan_bits(read_to + i, 0);
    }
    return lend_read(list, 8 * count);
}

/* One call: what is read, what is written, what is answered. */
typedef struct call {
    uint64_t entry, numbers[3], read[5], written[4], number, value;
    network net;
    double f, result;
    const uint32_t *a, *b;
    const double *c, *d, *e;
    uint32_t *lists[3];
    double *s;
} call;

#define A(x) (x).a, (x).read[0]
#define B(x) (x).b, (x).read[1]
#define C(x) (x).c, (x).read[2]
#define D(x) (x).d, (x).read[3]
#define E(x) (x).e, (x).read[4]
#define P(x) (x).lists[0], (x).written[0]
#define Q(x) (x).lists[1], (x).written[1]
#define R(x) (x).lists[2], (x).written[2]
#define S(x) (x).s, (x).written[3]

static void words(uint64_t *to, int count) {
    for (int i = 0; i < count; i++) to[i] = word();
}

static call next_call(void) {
    call x;
    uint64_t counts[4];
    x.entry = word();
    words(counts, 4);
    uint64_t length = word();
    words(x.numbers, 3);
    x.f = as_float(word());
    words(x.read, 5);
    words(x.written, 4);
    x.number = word();
    x.value = word();
    x.result = as_float(word());
    x.net = (network){counts[0], counts[1], counts[2], counts[3], lend_read(bytes(length), length), length};
    x.a = next_numbers(x.read[0]);
    x.b = next_numbers(x.read[1]);
    x.c = next_floats(x.read[2]);
    x.d = next_floats(x.read[3]);
    x.e = next_floats(x.read[4]);
    for (int i = 0; i < 3; i++) x.lists[i] = blank32(x.written[i]);
    x.s = blank64(x.written[3]);
    return x;
}

static socwr_scalar plain(socwr_answer got) {
    return (socwr_scalar){got.number, got.value, 0.0};
}

static socwr_scalar with_sign(socwr_selector got) {
    return (socwr_scalar){got.number, got.value, got.sign};
}

/* Entries 0 to 6. */
static socwr_scalar without_network(call x) {
    const uint64_t *n = x.numbers;
    switch (x.entry) {
    case 0: return socwr_unit_scale(n[0], n[1], x.f);
    case 1: return plain(socwr_selector_new(A(x), B(x), P(x), Q(x), S(x), R(x)));
    case 2: return socwr_max_abs(C(x));
    case 3: return plain(socwr_residual(n[0], n[1], A(x), B(x), C(x), x.f, D(x), E(x), S(x)));
    case 4: return plain(socwr_transpose(n[0], A(x), B(x), C(x), P(x), Q(x), S(x)));
    case 5: return plain(socwr_selector_matrix(n[0], A(x), B(x), C(x), S(x)));
    default: return plain(socwr_combine(n[0], n[1], n[2], A(x), B(x), C(x), x.f, D(x), E(x), S(x)));
    }
}

/* Entries 7 to 19. */
static socwr_scalar on_network(call x) {
    const uint64_t *n = x.numbers;
    switch (x.entry) {
    case 7: return plain(socwr_program_p(NET(x.net), P(x), Q(x), S(x)));
    case 8: return plain(socwr_program_q(NET(x.net), S(x)));
    case 9: return plain(socwr_program_a(NET(x.net), P(x), Q(x), S(x)));
    case 10: return plain(socwr_program_b(NET(x.net), S(x)));
    case 11: return plain(socwr_reading_check(NET(x.net), C(x), D(x)));
    case 12: return plain(socwr_prices(NET(x.net), D(x), S(x)));
    case 13: return socwr_objective(NET(x.net), n[0], C(x), x.f);
    case 14: return plain(socwr_kkt_entries(NET(x.net), C(x), D(x), P(x), Q(x), S(x)));
    case 15: return plain(socwr_parameter_len(NET(x.net), n[0]));
    case 16: return plain(socwr_operand_len(NET(x.net), n[0]));
    case 17: return plain(socwr_parameter_jacobian(NET(x.net), C(x), D(x), n[0], n[1], S(x)));
    case 18: return with_sign(socwr_operand_selector(NET(x.net), n[0], P(x), Q(x), S(x), R(x)));
    default: return plain(socwr_element_id(NET(x.net), n[0], n[1]));
    }
}

/* The list is the kept one; where nothing was to be written, the memory is as it was. */
static int numbers_left(const uint32_t *list, uint64_t count) {
    int right = 1;
    for (uint64_t i = 0; i < count; i++) {
        uint64_t kept = word();
        right &= kept == BLANK ? untouched(list + i, 4) : list[i] == kept;
    }
    return right;
}

/* The same of floats; a NaN that was there before is none that was written. */
static int floats_left(const double *list, uint64_t count) {
    int right = 1;
    for (uint64_t i = 0; i < count; i++) {
        uint64_t kept = word(), got;
        memcpy(&got, list + i, 8);
        int blank = untouched(list + i, 8);
        right &= kept == BLANK_FLOAT ? blank : is_nan(kept) ? is_nan(got) && !blank : got == kept;
    }
    return right;
}

/* Equal bits, or both no number. */
static int same_float(double x, double y) {
    return !memcmp(&x, &y, 8) || (x != x && y != y);
}

static void one_call(void) {
    call x = next_call();
    socwr_scalar got = x.entry < 7 ? without_network(x) : on_network(x);
    EXPECT(got.number == x.number && got.value == x.value && same_float(got.result, x.result));
    for (int i = 0; i < 3; i++) EXPECT(numbers_left(x.lists[i], x.written[i]));
    EXPECT(floats_left(x.s, x.written[3]));
    if (failed) {
        printf("entry %d, before byte %d of the kept answers\n", (int)x.entry, (int)read_to);
        exit(1);
    }
    /* The records and nine lists. */
    give_back(10);
}

/* Kind 1 has no list of floats. */
static void pass_over(void) {
    uint64_t head[6];
    words(head, 6);
    bytes(head[4] + 96 * head[5]);
}

static void all(void) {
    read_to = 128;
    for (uint64_t kind = word(); kind; kind = word()) {
        if (kind == 1) {
            pass_over();
        } else {
            one_call();
        }
    }
}

int main(void) {
    FILE *from = fopen("crates/vectors/stdin", "rb");
    if (!from || fseek(from, 0, SEEK_END) || ftell(from) < 128) {
        perror("crates/vectors/stdin");
        return 2;
    }
    size = (uint64_t)ftell(from);
    rewind(from);
    file = malloc(size);
    if (!file || fread(file, 1, size, from) != size) return 2;
    return run("kept answers", all);
}

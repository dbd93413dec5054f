#include "pool.h"
#include "chance.h"
#include "rule.h"

#include <string.h>

enum { CODERS = 16, RECORDS = 8, LINES = 8 };

static struct coder readers[CODERS], writers[CODERS], packets[CODERS];
static struct record records[RECORDS];
static struct line lines[LINES];

struct coder *some_reader(void) {
    return &ONE_OF(readers);
}

struct coder *some_writer(void) {
    return &ONE_OF(writers);
}

struct record *some_record(void) {
    return &ONE_OF(records);
}

struct line *some_line(void) {
    return &ONE_OF(lines);
}

static void fill(void *at, size_t n) {
    uint8_t *bytes = at;
    size_t i;
    for (i = 0; i < n; i += 8) {
        uint64_t word = any();
        memcpy(bytes + i, &word, n - i < 8 ? n - i : 8);
    }
}

void some_packet(struct coder *c) {
    const size_t few[] = {0, 1, 2, 3, 8, 60, 1275, below(1276)};
    const struct coder *kept = &ONE_OF(packets);
    if (one_in(2) && kept->n > 0) {
        memcpy(c->bytes, kept->bytes, kept->n);
        c->n = kept->n;
        return;
    }
    c->n = ONE_OF(few);
    if (one_in(8))
        memset(c->bytes, one_in(2) ? 0 : 255, c->n);
    else
        fill(c->bytes, c->n);
}

void keep_packet(const uint8_t *bytes, size_t n) {
    struct coder *kept = &ONE_OF(packets);
    memcpy(kept->bytes, bytes, n);
    kept->n = n;
}

/* A state of the rule, at random. */
static void state_by_chance(int64_t *s, size_t bytes, int reads) {
    int64_t n = (int64_t)bytes;
    s[0] = n;
    s[1] = (int64_t)below(bytes + 1);
    s[2] = (int64_t)(any() & UINT32_MAX);
    s[3] = (int64_t)below(33);
    s[4] = 33 + (int64_t)below((uint64_t)(8 * n + 33));
    s[5] = (int64_t)below(reads ? bytes + 1 : bytes - (size_t)s[1] + 1);
    s[6] = (1 << 23) + 1 + (int64_t)below((INT64_C(1) << 31) - (1 << 23));
    s[7] = (int64_t)below((uint64_t)(reads ? s[6] : (INT64_C(1) << 32) - s[6]));
    s[8] = (int64_t)(reads ? any() & UINT32_MAX : one_in(4) ? below(65536) : below(4));
    s[9] = (int64_t)below(reads ? 256 : 257) - !reads;
    s[10] = one_in(4) ? (reads ? 1 : -1) : 0;
    s[11] = 0;
}

/* Some of its numbers become others: at a border, past it, far off, or the same in other high bits. */
static void damage(int64_t *s, size_t count) {
    const int64_t far[] = {INT64_MIN, INT64_MIN + 1, -(INT64_C(1) << 32), -2, -1, 0, 1, 32, 33, 255, 256, 1275, 1276, 65535, 65536,
                           1 << 23, (1 << 23) + 1, INT64_C(1) << 31, (INT64_C(1) << 31) + 1, UINT32_MAX, INT64_C(1) << 32, INT64_MAX};
    size_t times = 1 + below(3);
    while (times-- > 0 && count > 0) {
        int64_t *number = &s[below(count)];
        switch (below(5)) {
        case 0: *number = (int64_t)any(); break;
        case 1: *number = (int64_t)((uint64_t)*number + (one_in(2) ? 1 : (uint64_t)-1)); break;
        case 2: *number = (int64_t)((uint64_t)*number ^ UINT64_C(1) << below(64)); break;
        case 3: *number = (int64_t)((uint64_t)*number + (UINT64_C(1) << 32)); break;
        default: *number = ONE_OF(far);
        }
    }
}

struct lent *lend_state(const struct coder *c, int reads, int for_writing) {
    size_t count = length_of(12);
    struct lent *l = (for_writing ? lend_for_writing : lend)("state", sizeof(int64_t), count);
    int64_t numbers[12];
    fill(l->at, count * sizeof(int64_t));
    memcpy(numbers, c->state, sizeof numbers);
    if (one_in(8))
        state_by_chance(numbers, c->n, reads);
    else if (spoilt())
        memcpy(numbers, (reads ? some_writer() : some_reader())->state, sizeof numbers);
    if (!spoilt() || !one_in(4)) /* else any numbers stay */
        memcpy(l->at, numbers, (count < 12 ? count : 12) * sizeof(int64_t));
    if (spoilt())
        damage(l->at, count);
    return l;
}

struct lent *lend_bytes(const struct coder *c, int for_writing) {
    size_t count = length_of(c->n);
    struct lent *l = (for_writing ? lend_for_writing : lend)("bytes", 1, count);
    memcpy(l->at, c->bytes, count < c->n ? count : c->n);
    if (count > c->n)
        fill((uint8_t *)l->at + c->n, count - c->n);
    return l;
}

void keep_coder(struct coder *c, const struct lent *state, const struct lent *bytes, uint32_t answer) {
    if (answer == 0) {
        memcpy(c->state, state->at, sizeof c->state);
        memcpy(c->bytes, bytes->at, bytes->count);
        c->n = bytes->count;
        c->usable = 1;
    } else if (answer == 4 || answer == 12)
        c->usable = 0;
}

struct lent *lend_energies(const struct record *r, int for_writing) {
    static const uint32_t wild[] = {0x7f800000, 0xff800000, 0x7fc00000, 0x7f800001, 0xffffffff};
    static const uint32_t edge[] = {0, 0x80000000, 1, 0x80000001, 0x7f7fffff, 0xff7fffff, 0xc1100000, 0xc1100001, 0xc10fffff};
    size_t i, count = length_of(42);
    struct lent *l = (for_writing ? lend_for_writing : lend)("energies", sizeof(float), count);
    uint32_t *bits = l->at;
    for (i = 0; i < count; i++)
        bits[i] = one_in(4) ? ONE_OF(edge) : (uint32_t)any() & 0xff7fffff;
    if (!one_in(4))
        memcpy(l->at, r->energies, (count < 42 ? count : 42) * sizeof(float));
    if (spoilt() && count > 0)
        bits[below(count)] = ONE_OF(wild);
    return l;
}

struct lent *lend_numbers(const char *name, size_t right, int32_t lo, int32_t hi) {
    size_t i, count = length_of(right);
    struct lent *l = lend(name, sizeof(int32_t), count);
    int32_t *list = l->at;
    int32_t top = one_in(2) ? hi : lo + (int32_t)below((uint64_t)((int64_t)hi - lo) + 1); /* all of them small, as often as not */
    for (i = 0; i < count; i++)
        list[i] = lo + (int32_t)below((uint64_t)((int64_t)top - lo) + 1);
    if (spoilt() && count > 0) {
        const int32_t wrong[] = {lo - 1, (int32_t)((int64_t)hi + 1), INT32_MIN, INT32_MAX, (int32_t)any()};
        list[below(count)] = ONE_OF(wrong);
    }
    return l;
}

struct lent *lend_for_result(const char *name, size_t size, size_t right) {
    struct lent *l = lend_for_writing(name, size, length_of(right));
    fill(l->at, size * l->count);
    return l;
}

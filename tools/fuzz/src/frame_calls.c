/* Energies, shapes, the stream record, saved lines and the lister. */
#include "calls.h"

#include <math.h>
#include <stdio.h>
#include <string.h>

/* Only the bands start..end-1 of the first c channels may change. */
static void may_change_bands(struct lent *energies, int32_t c, int32_t start, int32_t end) {
    if (!bands_ok(c, start, end))
        return;
    may_change(energies, (size_t)start, (size_t)end);
    if (c == 2)
        may_change(energies, (size_t)start + 21, (size_t)end + 21);
}

/* ---- energies */

struct bands {
    int32_t c, lm, start, end, intra;
};

static void some_bands(struct bands *q) {
    q->c = number(1, 2), q->lm = number(0, 3), q->start = number(0, 20);
    q->end = within(q->start, 0, 20) ? number(q->start + 1, 21) : number(1, 21);
    q->intra = number(0, 1);
}

void try_unquant_coarse_energy(void) {
    struct coder *c = fresh_reader();
    struct record *r = some_record();
    struct lent *state = lend_state(c, 1, 1), *bytes = lend_bytes(c, 0), *energies = lend_energies(r, 1);
    struct bands q;
    uint32_t want, answer;
    some_bands(&q);
    want = refused_read(state, bytes, energies->count == 42, coarse_ok(q.c, q.lm, q.start, q.end, q.intra), all_finite(energies->at, energies->count), 0);
    may_change_bands(energies, q.c, q.start, q.end);
    answer = CALL(unquant_coarse_energy, want, LENT(int64_t, state), LENT(const uint8_t, bytes), LENT(float, energies), q.c, q.lm, q.start, q.end, q.intra);
    if (answer == 0) {
        look_at_reader(state, bytes->count);
        MUST(all_finite(energies->at, 42));
        memcpy(r->energies, energies->at, sizeof r->energies);
    }
    keep_coder(c, state, bytes, answer);
}

void try_unquant_energy_finalise(void) {
    struct coder *c = fresh_reader();
    struct record *r = some_record();
    struct lent *state = lend_state(c, 1, 1), *bytes = lend_bytes(c, 0), *energies = lend_energies(r, 1);
    struct lent *fine = lend_numbers("fine", 21, 0, 8), *priorities = lend_numbers("priorities", 21, 0, 1);
    int32_t left = one_in(4) ? (int32_t)any() : number(0, 100);
    struct bands q;
    uint32_t want, answer;
    some_bands(&q);
    want = refused_read(state, bytes, energies->count == 42 && fine->count == 21 && priorities->count == 21, bands_ok(q.c, q.start, q.end),
                        all_finite(energies->at, energies->count) && all_within(fine->at, fine->count, 0, 8) &&
                            all_within(priorities->at, priorities->count, 0, 1),
                        0);
    may_change_bands(energies, q.c, q.start, q.end);
    answer = CALL(unquant_energy_finalise, want, LENT(int64_t, state), LENT(const uint8_t, bytes), LENT(float, energies), q.c, q.start, q.end,
                  LENT(const int32_t, fine), LENT(const int32_t, priorities), left);
    if (answer == 0) {
        look_at_reader(state, bytes->count);
        MUST(all_finite(energies->at, 42));
        memcpy(r->energies, energies->at, sizeof r->energies);
    }
    keep_coder(c, state, bytes, answer);
}

/* ---- shapes */

static float some_gain(void) {
    static const uint32_t edge[] = {0, 0x80000000, 0x3f800000, 0xbf800000, 1, 0x3f7fffff};
    static const uint32_t wild[] = {0x3f800001, 0xbf800001, 0x7f800000, 0xff800000, 0x7fc00000, 0xffffffff, 0x7f7fffff};
    uint32_t bits = spoilt() ? (one_in(2) ? ONE_OF(wild) : (uint32_t)any()) : one_in(2) ? ONE_OF(edge) : (uint32_t)any() & 0xbf7fffff;
    float gain;
    memcpy(&gain, &bits, sizeof gain);
    return gain;
}

void try_alg_unquant(void) {
    struct coder *c = fresh_reader();
    struct lent *state = lend_state(c, 1, 1), *bytes = lend_bytes(c, 0);
    int32_t n = number(2, 176), k = number(1, 128), spread, b;
    float gain = some_gain();
    struct lent *shape, *mask = lend_for_result("mask", sizeof(uint32_t), 1);
    uint32_t want, answer, special = 0;
    int32_t i;
    if (!spoilt() && !one_in(12) && within(n, 2, 176))
        while (k > 1 && (k > 128 || count_of((unsigned)n, (unsigned)k) > UINT32_MAX))
            k = 1 + (int32_t)below((uint64_t)(k > 128 ? 128 : k));
    spread = !spoilt() && !one_in(12) && 2 * (int64_t)k < n ? 0 : number(0, 3);
    do
        b = number(1, 16);
    while (!spoilt() && within(b, 1, 16) && n % b != 0);
    shape = lend_for_result("shape", sizeof(float), n < 0 || n > 1000 ? 7 : (size_t)n);
    if (within(n, 2, 176) && within(k, 1, 128))
        special = count_of((unsigned)n, (unsigned)k) > UINT32_MAX ? 7 : 2 * k < n && spread != 0 ? 9 : 0;
    want = refused_read(state, bytes, n >= 0 && shape->count == (size_t)n && mask->count == 1,
                        within(n, 2, 176) && within(k, 1, 128) && within(spread, 0, 3) && within(b, 1, 16) && n % b == 0,
                        -1.0f <= gain && gain <= 1.0f, special);
    answer = CALL(alg_unquant, want, LENT(int64_t, state), LENT(const uint8_t, bytes), LENT(float, shape), n, k, spread, b, gain, LENT(uint32_t, mask));
    if (answer == 0) {
        const float *x = shape->at;
        uint32_t parts = *(uint32_t *)mask->at;
        look_at_reader(state, bytes->count);
        MUST(b == 1 ? parts == 1 : parts > 0 && parts >> b == 0);
        for (i = 0; i < n; i++)
            MUST(fabsf(x[i]) <= 1.0001f);
    }
    keep_coder(c, state, bytes, answer);
}

/* ---- the record */

void try_record_fresh(void) {
    struct record *r = some_record();
    struct lent *energies = lend_for_result("energies", sizeof(float), 42), *next = lend_for_result("next", sizeof(uint64_t), 1);
    static const struct record zeros;
    if (CALL(record_fresh, energies->count != 42 || next->count != 1 ? 2 : 0, LENT(float, energies), LENT(uint64_t, next)) == 0) {
        MUST(memcmp(energies->at, zeros.energies, sizeof zeros.energies) == 0 && *(uint64_t *)next->at == 0);
        if (one_in(4))
            *r = zeros;
    }
}

/* The next number; where it is spoilt, and in some calls that are calm, one beside it, at the domain's end, or any. */
static uint64_t some_number(uint64_t next) {
    if (!spoilt() && !one_in(12))
        return next;
    switch (below(4)) {
    case 0: return next - 1 - below(3);
    case 1: return next + 1 + below(3);
    case 2: return 4294967290 + below(10);
    default: return any() >> below(64);
    }
}

/* A frame's number and the record's next are in their domain; else 1. */
static int numbers_in_domain(uint64_t next, uint64_t number) {
    return number <= 4294967294 && next <= 4294967295;
}

/* 10 below the next number, 11 above it. */
static uint32_t out_of_order(uint64_t next, uint64_t number) {
    return number < next ? 10 : number > next ? 11 : 0;
}

void try_record_order(void) {
    uint64_t next = any() >> below(64), number = one_in(2) ? some_number(next) : any() >> below(64);
    (void)CALL(record_order, numbers_in_domain(next, number) ? out_of_order(next, number) : 1, next, number);
}

void try_record_frame(void) {
    struct coder *c = fresh_reader();
    struct record *r = some_record();
    struct lent *energies = lend_energies(r, 1), *next = lend_for_result("next", sizeof(uint64_t), 1);
    struct lent *state = lend_state(c, 1, 1), *bytes = lend_bytes(c, 0);
    struct bands q;
    uint64_t number, was;
    uint32_t want, answer;
    int lengths = energies->count == 42 && next->count == 1;
    some_bands(&q);
    if (r->next > 4294967294 && !one_in(8))
        r->next = below(4294967295);
    was = spoilt() ? any() >> below(64) : r->next;
    number = some_number(was);
    if (next->count > 0)
        memcpy(next->at, &was, sizeof was);
    want = refused_read(state, bytes, lengths, coarse_ok(q.c, q.lm, q.start, q.end, q.intra) && numbers_in_domain(was, number),
                        all_finite(energies->at, energies->count), out_of_order(was, number));
    may_change_bands(energies, q.c, q.start, q.end);
    answer = CALL(record_frame, want, LENT(float, energies), LENT(uint64_t, next), LENT(int64_t, state), LENT(const uint8_t, bytes), number, q.c, q.lm,
                  q.start, q.end, q.intra);
    if (answer == 0) {
        look_at_reader(state, bytes->count);
        MUST(all_finite(energies->at, 42) && *(uint64_t *)next->at == number + 1);
        memcpy(r->energies, energies->at, sizeof r->energies);
        r->next = number + 1;
    }
    keep_coder(c, state, bytes, answer);
}

/* ---- saved lines */

void try_record_save(void) {
    struct record *r = some_record();
    struct line *kept = some_line();
    struct lent *energies = lend_energies(r, 0);
    struct lent *buf = lend_for_result("buf", 1, 390 + (one_in(2) ? 0 : below(300))), *length = lend_for_result("length", sizeof(size_t), 1);
    uint64_t next = spoilt() ? any() >> below(64) : r->next;
    char line[500];
    size_t n = 0;
    uint32_t want = energies->count != 42 || buf->count < 390 || length->count != 1 ? 2
                    : next > 4294967295                                              ? 1
                    : !all_finite(energies->at, energies->count)                     ? 3
                                                                                     : 0;
    if (want == 0) {
        n = line_of(energies->at, next, line);
        may_change(buf, 0, n);
    }
    if (CALL(record_save, want, LENT(const float, energies), next, LENT(uint8_t, buf), LENT(size_t, length)) == 0) {
        MUST(*(size_t *)length->at == n && memcmp(buf->at, line, n) == 0);
        memcpy(kept->bytes, line, n);
        kept->n = n;
    }
}

/* Some bytes of a line become others, go, or are put in. */
static size_t mutated(uint8_t *line, size_t n, size_t most) {
    static const uint8_t bytes[] = "0123456789abcdefABCDEFEQX-+ \t\n\r\0\xff\x80";
    size_t times = 1 + below(3);
    while (times-- > 0) {
        size_t at = below(n + 1);
        switch (below(6)) {
        case 0:
        case 1:
            if (at < n)
                line[at] = bytes[below(sizeof bytes - 1)];
            break;
        case 2:
            if (at < n)
                memmove(line + at, line + at + 1, n - at - 1), n--;
            break;
        case 3:
            if (n < most)
                memmove(line + at + 1, line + at, n - at), line[at] = bytes[below(sizeof bytes - 1)], n++;
            break;
        case 4:
            n = at;
            break;
        default:
            if (at < n)
                line[at] = (uint8_t)any();
        }
    }
    return n;
}

/* A saved line of another kind: whole numbers in 256ths. */
static size_t quantised(char *line) {
    size_t n = (size_t)sprintf(line, "Q\t%llu", (unsigned long long)below(4294967296));
    int i;
    for (i = 0; i < 42; i++)
        n += (size_t)sprintf(line + n, "\t%ld", (long)number(-32768, 32767));
    return n;
}

void try_record_restore(void) {
    static uint8_t bytes[5000];
    struct record *r = some_record();
    const struct line *kept = some_line();
    size_t n = kept->n;
    struct lent *line, *energies = lend_for_result("energies", sizeof(float), 42), *next = lend_for_result("next", sizeof(uint64_t), 1);
    float read[42];
    uint64_t number = 0;
    uint32_t want;
    memcpy(bytes, kept->bytes, n);
    if (n == 0 || one_in(3))
        n = quantised((char *)bytes);
    else if (one_in(6)) { /* energies of any bits */
        for (n = 0; n < 42; n++) {
            uint32_t bits = one_in(30) ? (uint32_t)any() | 0x7f800000 : (uint32_t)any() & 0xff7fffff;
            memcpy(&read[n], &bits, sizeof bits);
        }
        n = line_of(read, below(4294967296), (char *)bytes);
    }
    if (spoilt())
        n = mutated(bytes, n, sizeof bytes);
    if (spoilt() && one_in(4)) /* any bytes, or tabs alone */
        for (n = below(600), want = 0; want < n; want++)
            bytes[want] = one_in(4) ? '\t' : (uint8_t)any();
    line = lend("line", 1, n);
    memcpy(line->at, bytes, n);
    want = energies->count != 42 || next->count != 1 ? 2 : saved_line(bytes, n, &number, read);
    if (CALL(record_restore, want, LENT(const uint8_t, line), LENT(float, energies), LENT(uint64_t, next)) == 0) {
        MUST(memcmp(energies->at, read, sizeof read) == 0 && *(uint64_t *)next->at == number);
        memcpy(r->energies, read, sizeof read);
        r->next = number;
    }
}

/* ---- the lister */

uint64_t listings, allocations;

static size_t request(char *line) {
    const struct coder *c = some_reader();
    int32_t start = number(0, 20);
    size_t i, packet = one_in(4) ? c->n : c->n < 20 ? c->n : below(20);
    size_t n = (size_t)sprintf(line, "%d\t%d\t%d\t%d\t", (int)number(1, 2), (int)number(0, 3), (int)start,
                               (int)(within(start, 0, 20) ? number(start + 1, 21) : number(1, 21)));
    n += (size_t)(one_in(4) ? sprintf(line + n, "\t") : sprintf(line + n, "%d\t", (int)number(0, 10)));
    n += (size_t)(one_in(4) ? sprintf(line + n, "\t") : sprintf(line + n, "%d\t", (int)number(-100, one_in(2) ? 3000 : 81600)));
    for (i = 0; i < packet; i++)
        n += in_hex(c->bytes[i], 2, line + n);
    return n;
}

/* The answer to a request whose numbers are good: the same allocation, read by the other call. */
static size_t listed(const struct request *q, uint32_t line_number, char *out) {
    int64_t state[12];
    int32_t offsets[21] = {0}, most[21], pulses[21], fine[21], priorities[21], shown[4], j;
    size_t n;
    for (j = 0; j < 21; j++)
        most[j] = cap_of(q->c, q->lm, j);
    MUST(gurthapen_dec_new(state, 12, q->packet, q->packet_n) == 0);
    MUST(gurthapen_compute_allocation_read(state, 12, q->packet, q->packet_n, q->c, q->lm, q->start, q->end, q->trim, q->total, offsets, 21, most, 21,
                                           pulses, 21, fine, 21, priorities, 21, shown, 4) == 0);
    n = (size_t)sprintf(out, "R\t%lu\t%d\t%d\t%d\t%d\n", (unsigned long)line_number, (int)shown[0], (int)shown[1], (int)shown[2], (int)shown[3]);
    for (j = q->start; j < q->end; j++)
        n += (size_t)sprintf(out + n, "B\t%d\t%d\t%d\t%d\n", (int)j, (int)pulses[j], (int)fine[j], (int)priorities[j]);
    return n;
}

void try_list(void) {
    static uint8_t bytes[8000];
    static char answer[2000];
    static struct request q;
    struct lent *line, *out = lend_for_result("out", 1, 1200 + (one_in(2) ? 0 : below(300))), *length = lend_for_result("length", sizeof(size_t), 1);
    uint32_t line_number = (uint32_t)any() >> below(32);
    size_t i, n = request((char *)bytes), said;
    if (spoilt())
        n = mutated(bytes, n, sizeof bytes);
    if (spoilt() && one_in(4))
        for (n = below(6000), i = 0; i < n; i++)
            bytes[i] = one_in(4) ? '\t' : (uint8_t)any();
    line = lend("line", 1, n);
    memcpy(line->at, bytes, n);
    said = request_line(bytes, n, &q) && alloc_ok(q.c, q.lm, q.start, q.end, q.trim, q.total)
               ? listed(&q, line_number, answer)
               : (size_t)sprintf(answer, "X\t%lu\t1\n", (unsigned long)line_number);
    may_change(out, 0, said);
    if (CALL(list, out->count < 1200 || length->count != 1 ? 2 : 0, LENT(const uint8_t, line), line_number, LENT(uint8_t, out), LENT(size_t, length)) == 0) {
        MUST(*(size_t *)length->at == said && memcmp(out->at, answer, said) == 0);
        listings++;
        allocations += answer[0] == 'R';
    }
}

/* Symbols, Laplace values, pulse words, lookups and allocation. */
#include "calls.h"

#include <stdlib.h>
#include <string.h>

/* ---- what a coder must be after an answered call, and when a call is refused */

void look_at_reader(const struct lent *state, size_t bytes) {
    const int64_t *s = state->at;
    MUST(reader_ok(s) && s[0] == (int64_t)bytes && within(s[10], 0, 1) && s[11] == 0);
}

static void look_at_writer(const struct lent *state, size_t bytes, int closed) {
    const int64_t *s = state->at, *before = (const int64_t *)(const void *)state->before;
    int64_t run[12];
    memcpy(run, s, sizeof run);
    if (run[8] > 65535)
        run[8] = 65535; /* a held run may grow past the rule */
    MUST(writer_ok(run) && s[0] == (int64_t)bytes && within(s[10], -1, 0) && s[11] == closed);
    MUST(before[10] == 0 || s[10] != 0); /* a mark is never lost */
}

uint32_t refused_read(const struct lent *state, const struct lent *bytes, int lengths, int numbers, int lists, uint32_t special) {
    return refusal_of_reader(state->at, state->count, bytes->count, lengths, numbers, lists, special);
}

static uint32_t refused_write(const struct lent *state, const struct lent *bytes, int lengths, int numbers, int lists, uint32_t special) {
    return refusal_of_writer(state->at, state->count, bytes->count, lengths, numbers, lists, special);
}

/* ---- begin and close */

static void begin(struct coder *c, int reads) {
    struct lent *state = lend_for_result("state", sizeof(int64_t), 12);
    size_t n;
    struct lent *bytes;
    uint32_t want;
    some_packet(c);
    c->usable = 0;
    n = spoilt() ? 1276 + below(100) : c->n;
    bytes = lend("bytes", 1, n);
    memset(bytes->at, 0x5c, n);
    memcpy(bytes->at, c->bytes, c->n);
    want = state->count != 12 ? 2 : n > 1275 ? 1 : 0;
    if (reads ? CALL(dec_new, want, LENT(int64_t, state), LENT(const uint8_t, bytes)) == 0
              : CALL(enc_new, want, LENT(int64_t, state), LENT(const uint8_t, bytes)) == 0) {
        memset(state->before, 0, 12 * sizeof(int64_t));
        if (reads)
            look_at_reader(state, n);
        else
            look_at_writer(state, n, 0);
        keep_coder(c, state, bytes, 0);
    }
    take_back();
}

void try_dec_new(void) {
    begin(some_reader(), 1);
}

void try_enc_new(void) {
    begin(some_writer(), 0);
}

struct coder *fresh_reader(void) {
    struct coder *c = some_reader();
    if (!c->usable && !one_in(8))
        begin(c, 1);
    return c;
}

struct coder *fresh_writer(void) {
    struct coder *c = some_writer();
    if (!c->usable && !one_in(8))
        begin(c, 0);
    return c;
}

void try_enc_close(void) {
    struct coder *c = fresh_writer();
    struct lent *state = lend_state(c, 0, 1), *bytes = lend_bytes(c, 1);
    uint32_t want = refused_write(state, bytes, 1, 1, 1, 0);
    if (want == 4)
        want = 0; /* close is never refused with 4 */
    if (CALL(enc_close, want, LENT(int64_t, state), LENT(uint8_t, bytes)) == 0) {
        look_at_writer(state, bytes->count, 1);
        keep_packet(bytes->at, bytes->count);
        keep_coder(c, state, bytes, 0);
        c->usable = 0;
    }
}

/* ---- tell */

static void tell(int reads, int eighths) {
    struct lent *state = lend_state(reads ? fresh_reader() : fresh_writer(), reads, 0);
    struct lent *value = lend_for_result("value", sizeof(uint32_t), 1);
    const int64_t *s = state->at;
    uint32_t want = state->count != 12 || value->count != 1 ? 2 : (reads ? reader_ok(s) : writer_ok(s)) ? 0 : 1;
    uint32_t answer = reads ? eighths ? CALL(dec_tell_frac, want, LENT(const int64_t, state), LENT(uint32_t, value))
                                      : CALL(dec_tell, want, LENT(const int64_t, state), LENT(uint32_t, value))
                      : eighths ? CALL(enc_tell_frac, want, LENT(const int64_t, state), LENT(uint32_t, value))
                                : CALL(enc_tell, want, LENT(const int64_t, state), LENT(uint32_t, value));
    if (answer == 0) {
        int64_t told = *(uint32_t *)value->at;
        MUST(eighths ? within(told, 8 * tell_of(s) - 8, 8 * tell_of(s)) : told == tell_of(s));
    }
}

void try_dec_tell(void) {
    tell(1, 0);
}

void try_dec_tell_frac(void) {
    tell(1, 1);
}

void try_enc_tell(void) {
    tell(0, 0);
}

void try_enc_tell_frac(void) {
    tell(0, 1);
}

/* ---- symbols */

/* A table of the rule; where it is spoilt, any bytes. */
size_t some_table(uint32_t ftb, uint8_t *entries) {
    size_t n = 0;
    uint64_t entry = below(UINT64_C(1) << (within(ftb, 1, 8) ? ftb : 8));
    while (entry > 0) {
        entries[n++] = (uint8_t)entry;
        entry = one_in(8) ? 0 : one_in(2) ? entry - 1 : below(entry);
    }
    entries[n++] = 0;
    if (spoilt())
        entries[below(n)] = (uint8_t)any();
    return spoilt() ? below(n + 1) : n;
}

static struct lent *lend_table(uint32_t ftb) {
    uint8_t entries[256];
    struct lent *l = lend("table", 1, some_table(ftb, entries));
    memcpy(l->at, entries, l->count);
    return l;
}

/* A number of any size, and its bound. */
uint32_t some_bound(void) {
    uint32_t ft = (uint32_t)any() >> below(31);
    return spoilt() ? (uint32_t)below(3) : ft < 2 ? 2 : one_in(16) ? UINT32_MAX : ft;
}

uint32_t below_bound(uint32_t ft) {
    return spoilt() ? (one_in(2) ? ft : (uint32_t)any()) : ft == 0 ? 0 : one_in(8) ? ft - 1 : (uint32_t)below(ft);
}

void try_dec_bit_logp(void) {
    struct coder *c = fresh_reader();
    struct lent *state = lend_state(c, 1, 1), *bytes = lend_bytes(c, 0), *value = lend_for_result("value", sizeof(uint32_t), 1);
    uint32_t logp = (uint32_t)number(1, 15);
    uint32_t want = refused_read(state, bytes, value->count == 1, within(logp, 1, 15), 1, 0);
    uint32_t answer = CALL(dec_bit_logp, want, LENT(int64_t, state), LENT(const uint8_t, bytes), logp, LENT(uint32_t, value));
    if (answer == 0) {
        look_at_reader(state, bytes->count);
        MUST(*(uint32_t *)value->at <= 1);
    }
    keep_coder(c, state, bytes, answer);
}

void try_dec_icdf(void) {
    struct coder *c = fresh_reader();
    uint32_t ftb = (uint32_t)number(1, 8);
    struct lent *state = lend_state(c, 1, 1), *bytes = lend_bytes(c, 0), *value = lend_for_result("value", sizeof(uint32_t), 1);
    struct lent *table = lend_table(ftb);
    uint32_t want = refused_read(state, bytes, value->count == 1 && table->count > 0, within(ftb, 1, 8), table_ok(table->at, table->count, ftb), 0);
    uint32_t answer = CALL(dec_icdf, want, LENT(int64_t, state), LENT(const uint8_t, bytes), LENT(const uint8_t, table), ftb, LENT(uint32_t, value));
    if (answer == 0) {
        look_at_reader(state, bytes->count);
        MUST(*(uint32_t *)value->at < table->count);
    }
    keep_coder(c, state, bytes, answer);
}

void try_dec_uint(void) {
    struct coder *c = fresh_reader();
    struct lent *state = lend_state(c, 1, 1), *bytes = lend_bytes(c, 0), *value = lend_for_result("value", sizeof(uint32_t), 1);
    uint32_t ft = some_bound();
    uint32_t want = refused_read(state, bytes, value->count == 1, ft >= 2, 1, 0);
    uint32_t answer = CALL(dec_uint, want, LENT(int64_t, state), LENT(const uint8_t, bytes), ft, LENT(uint32_t, value));
    if (answer == 0) {
        look_at_reader(state, bytes->count);
        MUST(*(uint32_t *)value->at < ft);
    }
    keep_coder(c, state, bytes, answer);
}

void try_dec_bits(void) {
    struct coder *c = fresh_reader();
    struct lent *state = lend_state(c, 1, 1), *bytes = lend_bytes(c, 0), *value = lend_for_result("value", sizeof(uint32_t), 1);
    uint32_t n = (uint32_t)number(1, 25);
    uint32_t want = refused_read(state, bytes, value->count == 1, within(n, 1, 25), 1, 0);
    uint32_t answer = CALL(dec_bits, want, LENT(int64_t, state), LENT(const uint8_t, bytes), n, LENT(uint32_t, value));
    if (answer == 0) {
        look_at_reader(state, bytes->count);
        MUST(*(uint32_t *)value->at >> n == 0);
    }
    keep_coder(c, state, bytes, answer);
}

void try_enc_bit_logp(void) {
    struct coder *c = fresh_writer();
    struct lent *state = lend_state(c, 0, 1), *bytes = lend_bytes(c, 1);
    uint32_t value = (uint32_t)number(0, 1), logp = (uint32_t)number(1, 15);
    uint32_t want = refused_write(state, bytes, 1, value <= 1 && within(logp, 1, 15), 1, 0);
    uint32_t answer = CALL(enc_bit_logp, want, LENT(int64_t, state), LENT(uint8_t, bytes), value, logp);
    if (answer == 0)
        look_at_writer(state, bytes->count, 0);
    keep_coder(c, state, bytes, answer);
}

void try_enc_icdf(void) {
    struct coder *c = fresh_writer();
    uint32_t ftb = (uint32_t)number(1, 8);
    struct lent *state = lend_state(c, 0, 1), *bytes = lend_bytes(c, 1), *table = lend_table(ftb);
    uint32_t s = below_bound((uint32_t)table->count);
    uint32_t want = refused_write(state, bytes, table->count > 0, within(ftb, 1, 8) && s < table->count, table_ok(table->at, table->count, ftb), 0);
    uint32_t answer = CALL(enc_icdf, want, LENT(int64_t, state), LENT(uint8_t, bytes), s, LENT(const uint8_t, table), ftb);
    if (answer == 0)
        look_at_writer(state, bytes->count, 0);
    keep_coder(c, state, bytes, answer);
}

void try_enc_uint(void) {
    struct coder *c = fresh_writer();
    struct lent *state = lend_state(c, 0, 1), *bytes = lend_bytes(c, 1);
    uint32_t ft = some_bound(), fl = below_bound(ft);
    uint32_t want = refused_write(state, bytes, 1, ft >= 2 && fl < ft, 1, 0);
    uint32_t answer = CALL(enc_uint, want, LENT(int64_t, state), LENT(uint8_t, bytes), fl, ft);
    if (answer == 0)
        look_at_writer(state, bytes->count, 0);
    keep_coder(c, state, bytes, answer);
}

void try_enc_bits(void) {
    struct coder *c = fresh_writer();
    struct lent *state = lend_state(c, 0, 1), *bytes = lend_bytes(c, 1);
    uint32_t n = (uint32_t)number(1, 25), v = below_bound(within(n, 1, 25) ? 1u << n : 0);
    uint32_t want = refused_write(state, bytes, 1, within(n, 1, 25) && v >> (n & 31) == 0, 1, 0);
    uint32_t answer = CALL(enc_bits, want, LENT(int64_t, state), LENT(uint8_t, bytes), v, n);
    if (answer == 0)
        look_at_writer(state, bytes->count, 0);
    keep_coder(c, state, bytes, answer);
}

/* ---- Laplace values */

void some_pair(uint32_t *fs, uint32_t *decay) {
    pair_of((unsigned)below(168), fs, decay);
    if (spoilt())
        *fs = one_in(2) ? *fs + 1 : (uint32_t)any();
    if (spoilt())
        *decay = one_in(2) ? *decay + 64 : (uint32_t)any();
}

void try_laplace_decode(void) {
    struct coder *c = fresh_reader();
    struct lent *state = lend_state(c, 1, 1), *bytes = lend_bytes(c, 0), *value = lend_for_result("value", sizeof(int32_t), 1);
    uint32_t fs, decay, want, answer;
    some_pair(&fs, &decay);
    want = refused_read(state, bytes, value->count == 1, pair_ok(fs, decay), 1, 0);
    answer = CALL(laplace_decode, want, LENT(int64_t, state), LENT(const uint8_t, bytes), fs, decay, LENT(int32_t, value));
    if (answer == 0) {
        look_at_reader(state, bytes->count);
        MUST(within(*(int32_t *)value->at, -32768, 32767));
    }
    keep_coder(c, state, bytes, answer);
}

void try_laplace_encode(void) {
    struct coder *c = fresh_writer();
    struct lent *state = lend_state(c, 0, 1), *bytes = lend_bytes(c, 1), *value = lend_for_result("value", sizeof(int32_t), 1);
    int32_t z = one_in(2) ? number(-20, 20) : number(-32768, 32767);
    uint32_t fs, decay, want, answer;
    some_pair(&fs, &decay);
    want = refused_write(state, bytes, value->count == 1, pair_ok(fs, decay) && within(z, -32768, 32767), 1, 0);
    answer = CALL(laplace_encode, want, LENT(int64_t, state), LENT(uint8_t, bytes), z, fs, decay, LENT(int32_t, value));
    if (answer == 0) {
        int32_t counted = *(int32_t *)value->at;
        look_at_writer(state, bytes->count, 0);
        MUST(z >= 0 ? within(counted, 0, z) : within(counted, z, 0)); /* adjusted towards 0, if at all */
    }
    keep_coder(c, state, bytes, answer);
}

/* ---- pulse words */

/* N and K whose count fits, as often as not near the border; where they are spoilt, others. */
static void some_size(uint32_t *n, uint32_t *k) {
    *n = (uint32_t)number(2, 176);
    *k = (uint32_t)number(1, 128);
    if (!spoilt() && !one_in(16) && within(*n, 2, 176))
        while (*k > 1 && (*k > 128 || count_of(*n, *k) > UINT32_MAX))
            *k = one_in(2) && *k < 128 ? *k - 1 : 1 + (uint32_t)below(*k > 128 ? 128 : *k);
}

static uint32_t count_refused(uint32_t n, uint32_t k) {
    return within(n, 2, 176) && within(k, 1, 128) && count_of(n, k) > UINT32_MAX ? 7 : 0;
}

static uint64_t size_of(const int32_t *y, size_t n, uint64_t *energy) {
    uint64_t sum = 0;
    size_t i;
    *energy = 0;
    for (i = 0; i < n; i++) {
        sum += (uint64_t)llabs((long long)y[i]);
        *energy += (uint64_t)((int64_t)y[i] * y[i]);
    }
    return sum;
}

void try_decode_pulses(void) {
    struct coder *c = fresh_reader();
    struct lent *state = lend_state(c, 1, 1), *bytes = lend_bytes(c, 0), *y = lend_for_result("y", sizeof(int32_t), 176);
    struct lent *energy = lend_for_result("energy", sizeof(uint32_t), 1);
    uint32_t n, k, want, answer;
    some_size(&n, &k);
    want = refused_read(state, bytes, y->count == 176 && energy->count == 1, within(n, 2, 176) && within(k, 1, 128), 1, count_refused(n, k));
    may_change(y, 0, n);
    answer = CALL(decode_pulses, want, LENT(int64_t, state), LENT(const uint8_t, bytes), LENT(int32_t, y), n, k, LENT(uint32_t, energy));
    if (answer == 0) {
        uint64_t squares;
        look_at_reader(state, bytes->count);
        MUST(size_of(y->at, n, &squares) == k && squares == *(uint32_t *)energy->at);
    }
    keep_coder(c, state, bytes, answer);
}

void try_encode_pulses(void) {
    struct coder *c = fresh_writer();
    struct lent *state = lend_state(c, 0, 1), *bytes = lend_bytes(c, 1), *y = lend("y", sizeof(int32_t), length_of(176));
    int32_t *places = y->at;
    uint32_t n, k, i, want, answer, special;
    uint64_t squares;
    some_size(&n, &k);
    for (i = 0; i < y->count; i++)
        places[i] = i < n ? 0 : (int32_t)any();
    if (n >= 1 && n <= y->count)
        for (i = 0; i < k && i < 200; i++) {
            int32_t *place = &places[below(n)];
            *place += *place < 0 || (*place == 0 && one_in(2)) ? -1 : 1;
        }
    if ((spoilt() || one_in(16)) && y->count > 0)
        places[below(y->count)] = one_in(2) ? (int32_t)any() : (int32_t)below(3) - 1;
    special = count_refused(n, k);
    if (special == 0 && n <= y->count && size_of(places, n, &squares) != k)
        special = 8;
    want = refused_write(state, bytes, y->count == 176, within(n, 2, 176) && within(k, 1, 128), 1, special);
    answer = CALL(encode_pulses, want, LENT(int64_t, state), LENT(uint8_t, bytes), LENT(const int32_t, y), n, k);
    if (answer == 0)
        look_at_writer(state, bytes->count, 0);
    keep_coder(c, state, bytes, answer);
}

/* ---- lookups */

void try_get_pulses(void) {
    struct lent *value = lend_for_result("value", sizeof(uint32_t), 1);
    int32_t i = number(0, 40);
    if (CALL(get_pulses, value->count != 1 ? 2 : !within(i, 0, 40) ? 1 : 0, i, LENT(uint32_t, value)) == 0)
        MUST(*(uint32_t *)value->at == (i < 8 ? (uint32_t)i : (8u + (uint32_t)i % 8) << (i / 8 - 1)));
}

/* 2, 1 and 5 of both lookups of a row; 6 for an index that the row has not. */
static uint32_t lookup_refused(const struct lent *value, int32_t band, int32_t lm, int in_domain, int32_t least, int32_t index) {
    if (value->count != 1)
        return 2;
    if (!within(band, 0, 20) || !within(lm, -1, 3) || !in_domain)
        return 1;
    return row_of(lm, band) == 0 ? 5 : !within(index, least, row_of(lm, band)) ? 6 : 0;
}

void try_bits2pulses(void) {
    struct lent *value = lend_for_result("value", sizeof(uint32_t), 1);
    int32_t band = number(0, 20), lm = number(-1, 3), bits = one_in(2) ? number(-10, 300) : number(-81600, 81600);
    uint32_t want = lookup_refused(value, band, lm, within(bits, -81600, 81600), 0, 0);
    if (CALL(bits2pulses, want, band, lm, bits, LENT(uint32_t, value)) == 0)
        MUST(within(*(uint32_t *)value->at, 0, row_of(lm, band)));
}

void try_pulses2bits(void) {
    struct lent *value = lend_for_result("value", sizeof(uint32_t), 1);
    int32_t band = number(0, 20), lm = number(-1, 3);
    int32_t pulses = within(band, 0, 20) && within(lm, -1, 3) ? number(0, row_of(lm, band)) : number(0, 40);
    uint32_t want = lookup_refused(value, band, lm, 1, 0, pulses);
    if (CALL(pulses2bits, want, band, lm, pulses, LENT(uint32_t, value)) == 0)
        MUST(pulses == 0 ? *(uint32_t *)value->at == 0 : within(*(uint32_t *)value->at, 8, 256));
}

/* ---- allocation */

void ask(struct asked *q) {
    q->c = number(1, 2), q->lm = number(0, 3), q->start = number(0, 20);
    q->end = within(q->start, 0, 20) ? number(q->start + 1, 21) : number(1, 21);
    q->trim = number(0, 10), q->total = one_in(8) ? -(int32_t)below(10000) : one_in(2) ? number(0, 3000) : number(0, 81600);
    q->offsets = one_in(2) ? lend_numbers("offsets", 21, 0, 0) : lend_numbers("offsets", 21, 0, one_in(2) ? 600 : 81600);
    q->caps = lend_numbers("caps", 21, 0, one_in(2) ? 3000 : 32767);
}

void wish(const struct asked *q, struct wishes *h) {
    h->dual = number(0, 1), h->previous = one_in(4) ? (int32_t)any() : number(0, 21), h->bandwidth = one_in(4) ? (int32_t)any() : number(0, 21);
    h->intensity = bands_ok(q->c, q->start, q->end) ? number(q->start, q->end) : number(0, 21);
    if (q->c == 1 && one_in(2))
        h->intensity = (int32_t)any(), h->dual = (int32_t)any(); /* not looked at */
}

/* The lists for the shares. */
static void lend_shares(struct asked *q) {
    q->pulses = lend_for_result("pulses", sizeof(int32_t), 21);
    q->fine = lend_for_result("fine", sizeof(int32_t), 21);
    q->priorities = lend_for_result("priorities", sizeof(int32_t), 21);
    q->shown = lend_for_result("shown", sizeof(int32_t), 4);
    if (within(q->start, 0, 21) && within(q->end, q->start, 21)) {
        may_change(q->pulses, (size_t)q->start, (size_t)q->end);
        may_change(q->fine, (size_t)q->start, (size_t)q->end);
        may_change(q->priorities, (size_t)q->start, (size_t)q->end);
    }
}

static int asked_sized(const struct asked *q) {
    return q->offsets->count == 21 && q->caps->count == 21 && q->pulses->count == 21 && q->fine->count == 21 && q->priorities->count == 21 &&
           q->shown->count == 4;
}

static int asked_entries(const struct asked *q) {
    return all_within(q->offsets->at, q->offsets->count, 0, 81600) && all_within(q->caps->at, q->caps->count, 0, 32767);
}

static void look_at_shares(const struct asked *q) {
    const int32_t *shown = q->shown->at, *pulses = q->pulses->at, *fine = q->fine->at, *priorities = q->priorities->at;
    int32_t j;
    MUST(within(shown[0], q->start, q->end) && shown[1] >= 0 && within(shown[2], 0, q->end) && within(shown[3], 0, 1));
    for (j = q->start; j < q->end; j++)
        MUST(pulses[j] >= 0 && within(fine[j], 0, 8) && within(priorities[j], 0, 1));
}

void try_compute_allocation_read(void) {
    struct coder *c = fresh_reader();
    struct lent *state = lend_state(c, 1, 1), *bytes = lend_bytes(c, 0);
    struct asked q;
    uint32_t want, answer;
    ask(&q);
    lend_shares(&q);
    want = refused_read(state, bytes, asked_sized(&q), alloc_ok(q.c, q.lm, q.start, q.end, q.trim, q.total), asked_entries(&q), 0);
    answer = CALL(compute_allocation_read, want, LENT(int64_t, state), LENT(const uint8_t, bytes), q.c, q.lm, q.start, q.end, q.trim, q.total,
                  LENT(const int32_t, q.offsets), LENT(const int32_t, q.caps), LENT(int32_t, q.pulses), LENT(int32_t, q.fine),
                  LENT(int32_t, q.priorities), LENT(int32_t, q.shown));
    if (answer == 0) {
        look_at_reader(state, bytes->count);
        look_at_shares(&q);
    }
    keep_coder(c, state, bytes, answer);
}

void try_compute_allocation_write(void) {
    struct coder *c = fresh_writer();
    struct lent *state = lend_state(c, 0, 1), *bytes = lend_bytes(c, 1);
    struct asked q;
    struct wishes h;
    uint32_t want, answer;
    int stereo;
    ask(&q);
    wish(&q, &h);
    lend_shares(&q);
    stereo = q.c != 2 || (within(h.intensity, q.start, q.end) && within(h.dual, 0, 1));
    want = refused_write(state, bytes, asked_sized(&q), alloc_ok(q.c, q.lm, q.start, q.end, q.trim, q.total) && stereo, asked_entries(&q), 0);
    answer = CALL(compute_allocation_write, want, LENT(int64_t, state), LENT(uint8_t, bytes), q.c, q.lm, q.start, q.end, q.trim, q.total, h.intensity,
                  h.dual, h.previous, h.bandwidth, LENT(const int32_t, q.offsets), LENT(const int32_t, q.caps), LENT(int32_t, q.pulses),
                  LENT(int32_t, q.fine), LENT(int32_t, q.priorities), LENT(int32_t, q.shown));
    if (answer == 0) {
        look_at_writer(state, bytes->count, 0);
        look_at_shares(&q);
    }
    keep_coder(c, state, bytes, answer);
}

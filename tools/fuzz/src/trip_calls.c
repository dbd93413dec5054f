/* The round trip. What it must answer is what the writer's calls give, made one after the other, where the symbols are a list of symbols. */
#include "calls.h"

#include <string.h>

enum { MOST_SYMBOLS = 500, MOST_ENTRIES = 4096 };

uint64_t agreed, not_closed, refused_by[4];

/* ---- symbols */

struct row {
    uint32_t numbers[5 * MOST_SYMBOLS];
    uint8_t tables[MOST_ENTRIES];
    size_t n, tables_n; /* numbers, entries */
};

/* A value by its count: 0, -1, 1, -2, 2, .. by 0, 1, 2, 3, 4, .. */
static uint32_t count_of_value(int32_t z) {
    return z < 0 ? 2 * (uint32_t)(-(z + 1)) + 1 : 2 * (uint32_t)z;
}

static int32_t value_of_count(uint32_t n) {
    return n % 2 != 0 ? -(int32_t)(n / 2) - 1 : (int32_t)(n / 2);
}

/* One symbol of a kind; a table's entries go to the end of the tables. */
static void some_symbol(struct row *row, uint32_t *s) {
    uint32_t i;
    for (i = 0; i < 5; i++)
        s[i] = (uint32_t)any() >> below(32);
    s[0] = one_in(30) ? s[0] : (uint32_t)below(5);
    switch (s[0]) {
    case GURTHAPEN_BIT: s[1] = (uint32_t)number(0, 1), s[2] = (uint32_t)number(1, 15); break;
    case GURTHAPEN_TABLE:
        s[2] = (uint32_t)number(1, 8);
        s[3] = row->tables_n + 256 <= MOST_ENTRIES ? (uint32_t)row->tables_n : 0; /* where there is no room, from the front anew */
        s[4] = (uint32_t)some_table(s[2], row->tables + s[3]);
        if (s[3] + s[4] > row->tables_n)
            row->tables_n = s[3] + s[4];
        s[1] = below_bound(s[4]);
        break;
    case GURTHAPEN_UNIFORM: s[2] = some_bound(), s[1] = below_bound(s[2]); break;
    case GURTHAPEN_RAW: s[2] = (uint32_t)number(1, 25), s[1] = below_bound(within(s[2], 1, 25) ? 1u << s[2] : 0); break;
    default: s[1] = count_of_value(one_in(2) ? number(-20, 20) : number(-32768, 32767)), some_pair(&s[2], &s[3]);
    }
    if (spoilt())
        s[below(5)] = one_in(2) ? (uint32_t)below(300) : (uint32_t)any();
}

static void some_row(struct row *row) {
    size_t symbols = one_in(8) ? below(MOST_SYMBOLS) : one_in(2) ? below(40) : below(6), i;
    row->n = row->tables_n = 0;
    for (i = 0; i < symbols; i++, row->n += 5)
        some_symbol(row, row->numbers + row->n);
    if (spoilt()) /* some that are no symbol */
        row->n -= row->n < 5 ? 0 : below(5);
    if (spoilt() && one_in(2))
        row->tables_n = below(row->tables_n + 1);
}

/* What the call itself must refuse: five numbers for each symbol, a kind there is, a table's entries up to the last. */
static uint32_t must_refuse(const struct row *row, size_t outcome_n) {
    uint32_t no = 0;
    size_t i;
    if (outcome_n != 4 || row->n % 5 != 0)
        return 2;
    for (i = 0; i < row->n; i += 5) {
        const uint32_t *s = row->numbers + i;
        if (s[0] > GURTHAPEN_LAPLACE || (s[0] == GURTHAPEN_TABLE && (uint64_t)s[3] + s[4] > row->tables_n))
            no = 1;
    }
    return no;
}

/* ---- the writer's calls, one after the other */

struct writer {
    int64_t state[12];
    uint8_t bytes[ROOM];
    size_t n;
};

static uint32_t write_symbol(struct writer *w, const uint32_t *s, const uint8_t *tables) {
    int32_t counted;
    switch (s[0]) {
    case GURTHAPEN_BIT: return gurthapen_enc_bit_logp(w->state, 12, w->bytes, w->n, s[1], s[2]);
    case GURTHAPEN_TABLE: return gurthapen_enc_icdf(w->state, 12, w->bytes, w->n, s[1], tables + s[3], s[4], s[2]);
    case GURTHAPEN_UNIFORM: return gurthapen_enc_uint(w->state, 12, w->bytes, w->n, s[1], s[2]);
    case GURTHAPEN_RAW: return gurthapen_enc_bits(w->state, 12, w->bytes, w->n, s[1], s[2]);
    default: return gurthapen_laplace_encode(w->state, 12, w->bytes, w->n, value_of_count(s[1]), s[2], s[3], &counted, 1);
    }
}

static void refused(uint64_t *outcome, enum gurthapen_call by, size_t which, uint32_t why) {
    outcome[GURTHAPEN_ENDED] = GURTHAPEN_REFUSED, outcome[GURTHAPEN_BY] = by, outcome[GURTHAPEN_WHICH] = which, outcome[GURTHAPEN_WHY] = why;
}

static void written(struct writer *w, const struct lent *symbols, const struct lent *tables, const struct asked *q, const struct wishes *h,
                    uint64_t *outcome) {
    int32_t pulses[21], fine[21], priorities[21], shown[4];
    uint32_t no = gurthapen_enc_new(w->state, 12, w->bytes, w->n);
    size_t i;
    memset(outcome, 0, 4 * sizeof *outcome);
    if (no != 0) {
        refused(outcome, GURTHAPEN_BY_NEW, 0, no);
        return;
    }
    for (i = 0; i < symbols->count / 5; i++)
        if ((no = write_symbol(w, (const uint32_t *)symbols->at + 5 * i, tables->at)) != 0) {
            refused(outcome, GURTHAPEN_BY_SYMBOL, i, no);
            return;
        }
    no = gurthapen_compute_allocation_write(w->state, 12, w->bytes, w->n, q->c, q->lm, q->start, q->end, q->trim, q->total, h->intensity, h->dual,
                                            h->previous, h->bandwidth, q->offsets->at, q->offsets->count, q->caps->at, q->caps->count, pulses, 21, fine,
                                            21, priorities, 21, shown, 4);
    if (no != 0) {
        refused(outcome, GURTHAPEN_BY_ALLOCATION, 0, no);
        return;
    }
    if ((no = gurthapen_enc_close(w->state, 12, w->bytes, w->n)) != 0) {
        refused(outcome, GURTHAPEN_BY_CLOSE, 0, no);
        return;
    }
    outcome[GURTHAPEN_ENDED] = w->state[GURTHAPEN_ERROR] != 0 ? GURTHAPEN_NOT_CLOSED : GURTHAPEN_AGREED;
}

/* ---- the call */

static struct lent *lend_row(const char *name, size_t size, const void *from, size_t n) {
    struct lent *l = lend(name, size, n);
    memcpy(l->at, from, size * n);
    return l;
}

void try_round_trip(void) {
    static struct coder c;
    static struct row row;
    static struct writer w;
    struct lent *bytes, *symbols, *tables, *outcome = lend_for_result("outcome", sizeof(uint64_t), 4);
    struct asked q;
    struct wishes h;
    uint64_t must[4];
    uint32_t no;
    some_packet(&c);
    bytes = lend_bytes(&c, 0);
    some_row(&row);
    symbols = lend_row("symbols", sizeof(uint32_t), row.numbers, row.n);
    tables = lend_row("tables", 1, row.tables, row.tables_n);
    ask(&q);
    wish(&q, &h);
    no = must_refuse(&row, outcome->count);
    memcpy(w.bytes, bytes->at, w.n = bytes->count);
    if (no == 0)
        written(&w, symbols, tables, &q, &h, must);
    if (CALL(round_trip, no, LENT(const uint8_t, bytes), LENT(const uint32_t, symbols), LENT(const uint8_t, tables), q.c, q.lm,
             q.start, q.end, q.trim, q.total, h.intensity, h.dual, h.previous, h.bandwidth, LENT(const int32_t, q.offsets),
             LENT(const int32_t, q.caps), LENT(uint64_t, outcome)) == 0) {
        MUST(memcmp(outcome->at, must, sizeof must) == 0);
        agreed += must[GURTHAPEN_ENDED] == GURTHAPEN_AGREED;
        not_closed += must[GURTHAPEN_ENDED] == GURTHAPEN_NOT_CLOSED;
        refused_by[must[GURTHAPEN_BY]] += must[GURTHAPEN_ENDED] == GURTHAPEN_REFUSED;
    }
}

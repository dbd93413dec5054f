/* The round trip: it agrees, close reports an error, the calls that refuse and where; lists that are none of symbols, the outcome's length,
 * and that nothing else is changed. */
#include "try.h"

enum { BYTES = 60, SYMBOLS = 6 };

/* All that a trip is lent or given. */
struct trip {
    uint8_t bytes[1276], tables[8];
    size_t bytes_n, tables_n, symbols_n, offsets_n, caps_n;
    uint32_t symbols[SYMBOLS][GURTHAPEN_SYMBOL];
    int32_t c, lm, start, end, trim, total, intensity, dual, previous, bandwidth;
    int32_t offsets[GURTHAPEN_BANDS + 1], caps[GURTHAPEN_BANDS + 1];
};

/* A symbol of each kind, two of them of a table, and an allocation of all bands. */
static void good(struct trip *t) {
    static const uint32_t symbols[SYMBOLS][GURTHAPEN_SYMBOL] = {{GURTHAPEN_BIT, 1, 3},
                                                                {GURTHAPEN_TABLE, 1, 2, 1, 3},
                                                                {GURTHAPEN_UNIFORM, 70000, 100000},
                                                                {GURTHAPEN_RAW, 5, 3},
                                                                {GURTHAPEN_LAPLACE, 3, 72 << 7, 127 << 6},
                                                                {GURTHAPEN_TABLE, 3, 3, 4, 4}};
    static const uint8_t tables[] = {7, 2, 1, 0, 6, 3, 1, 0};
    size_t j;
    memset(t, 0, sizeof *t);
    memset(t->bytes, 0xa5, sizeof t->bytes);
    memcpy(t->symbols, symbols, sizeof symbols);
    memcpy(t->tables, tables, sizeof tables);
    t->bytes_n = BYTES, t->tables_n = sizeof tables, t->symbols_n = SYMBOLS * GURTHAPEN_SYMBOL, t->offsets_n = t->caps_n = GURTHAPEN_BANDS;
    t->c = 2, t->lm = 3, t->end = 21, t->trim = 5, t->total = 3000, t->intensity = 12, t->dual = 1, t->bandwidth = 20;
    t->offsets[3] = 80;
    for (j = 0; j < GURTHAPEN_BANDS; j++)
        t->caps[j] = 4000;
}

static uint32_t call(const struct trip *t, uint64_t *outcome, size_t outcome_n) {
    return gurthapen_round_trip(t->bytes, t->bytes_n, t->symbols[0], t->symbols_n, t->tables, t->tables_n, t->c, t->lm, t->start, t->end, t->trim,
                                t->total, t->intensity, t->dual, t->previous, t->bandwidth, t->offsets, t->offsets_n, t->caps, t->caps_n, outcome,
                                outcome_n);
}

/* The trip ends like this, and nothing but the four numbers is changed. */
static void ends(const struct trip *t, uint64_t how, uint64_t by, uint64_t which, uint64_t why) {
    static struct trip before;
    uint64_t outcome[GURTHAPEN_OUTCOME + 2] = {77, 77, 77, 77, 77, 77};
    memcpy(&before, t, sizeof before);
    IS(call(t, outcome + 1, GURTHAPEN_OUTCOME), 0);
    IS(outcome[1 + GURTHAPEN_ENDED], how);
    IS(outcome[1 + GURTHAPEN_BY], by);
    IS(outcome[1 + GURTHAPEN_WHICH], which);
    IS(outcome[1 + GURTHAPEN_WHY], why);
    IS(outcome[0], 77);
    IS(outcome[5], 77);
    IS(memcmp(t, &before, sizeof before), 0);
}

static void refused(const struct trip *t, enum gurthapen_call by, uint64_t which, enum gurthapen_refusal why) {
    ends(t, GURTHAPEN_REFUSED, by, which, why);
}

/* Trips that agree, and trips whose close reports an error. */
static void ended(void) {
    static struct trip t;
    good(&t);
    ends(&t, GURTHAPEN_AGREED, 0, 0, 0);
    t.symbols[0][3] = t.symbols[0][4] = t.symbols[2][3] = t.symbols[2][4] = t.symbols[4][4] = UINT32_MAX; /* numbers that are not looked at */
    ends(&t, GURTHAPEN_AGREED, 0, 0, 0);
    t.symbols_n = 0; /* an allocation alone */
    ends(&t, GURTHAPEN_AGREED, 0, 0, 0);

    good(&t);
    t.bytes_n = 3; /* less than the symbols need */
    ends(&t, GURTHAPEN_NOT_CLOSED, 0, 0, 0);
    t.symbols_n = 0, t.bytes_n = 0; /* no byte for what close writes */
    ends(&t, GURTHAPEN_NOT_CLOSED, 0, 0, 0);
    good(&t);
    t.bytes_n = 1275;
    ends(&t, GURTHAPEN_AGREED, 0, 0, 0);
}

/* The calls that refuse, with the place of the symbol and the number of the refusal. */
static void refusals(void) {
    static struct trip t;
    size_t i;
    good(&t);
    t.bytes_n = 1276;
    refused(&t, GURTHAPEN_BY_NEW, 0, GURTHAPEN_NUMBER);

    good(&t);
    t.symbols[0][2] = 16; /* logp */
    refused(&t, GURTHAPEN_BY_SYMBOL, 0, GURTHAPEN_NUMBER);
    good(&t);
    t.symbols[1][4] = 0; /* an empty table */
    refused(&t, GURTHAPEN_BY_SYMBOL, 1, GURTHAPEN_LENGTH);
    t.symbols[1][3] = 8; /* one at the end of tables */
    refused(&t, GURTHAPEN_BY_SYMBOL, 1, GURTHAPEN_LENGTH);
    good(&t);
    t.tables[2] = 2; /* its entries do not fall */
    refused(&t, GURTHAPEN_BY_SYMBOL, 1, GURTHAPEN_ENTRY);
    good(&t);
    t.symbols[2][1] = 100000; /* not below ft */
    refused(&t, GURTHAPEN_BY_SYMBOL, 2, GURTHAPEN_NUMBER);
    good(&t);
    t.symbols[3][2] = 26; /* raw bits */
    refused(&t, GURTHAPEN_BY_SYMBOL, 3, GURTHAPEN_NUMBER);
    good(&t);
    t.symbols[4][2] = 128; /* no pair of the model */
    refused(&t, GURTHAPEN_BY_SYMBOL, 4, GURTHAPEN_NUMBER);
    good(&t);
    t.symbols[4][1] = 65536; /* 32,768 */
    refused(&t, GURTHAPEN_BY_SYMBOL, 4, GURTHAPEN_NUMBER);
    t.symbols[4][1] = UINT32_MAX;
    refused(&t, GURTHAPEN_BY_SYMBOL, 4, GURTHAPEN_NUMBER);
    t.symbols[4][1] = 65535; /* -32,768 */
    ends(&t, GURTHAPEN_AGREED, 0, 0, 0);
    good(&t);
    t.symbols[5][1] = 4; /* the table has four entries */
    refused(&t, GURTHAPEN_BY_SYMBOL, 5, GURTHAPEN_NUMBER);
    t.symbols[2][1] = 100000; /* the first that refuses */
    refused(&t, GURTHAPEN_BY_SYMBOL, 2, GURTHAPEN_NUMBER);

    good(&t); /* tell past the end: 25 raw bits each, over one byte */
    t.bytes_n = 1;
    for (i = 0; i < SYMBOLS; i++)
        t.symbols[i][0] = GURTHAPEN_RAW, t.symbols[i][1] = 0, t.symbols[i][2] = 25;
    refused(&t, GURTHAPEN_BY_SYMBOL, 2, GURTHAPEN_PAST_END);

    good(&t);
    t.offsets_n = 20;
    refused(&t, GURTHAPEN_BY_ALLOCATION, 0, GURTHAPEN_LENGTH);
    good(&t);
    t.caps_n = 22;
    refused(&t, GURTHAPEN_BY_ALLOCATION, 0, GURTHAPEN_LENGTH);
    good(&t);
    t.total = 81601;
    refused(&t, GURTHAPEN_BY_ALLOCATION, 0, GURTHAPEN_NUMBER);
    good(&t);
    t.intensity = 22;
    refused(&t, GURTHAPEN_BY_ALLOCATION, 0, GURTHAPEN_NUMBER);
    t.c = 1; /* not looked at with one channel */
    ends(&t, GURTHAPEN_AGREED, 0, 0, 0);
    t.caps[20] = 32768;
    refused(&t, GURTHAPEN_BY_ALLOCATION, 0, GURTHAPEN_ENTRY);
    good(&t);
    t.bytes_n = 1, t.symbols_n = 2 * GURTHAPEN_SYMBOL;
    for (i = 0; i < 2; i++)
        t.symbols[i][0] = GURTHAPEN_RAW, t.symbols[i][1] = 0, t.symbols[i][2] = 25;
    refused(&t, GURTHAPEN_BY_ALLOCATION, 0, GURTHAPEN_PAST_END);
}

/* Refused as what is no list of symbols: nothing is changed. */
static void malformed(const struct trip *t, enum gurthapen_refusal why) {
    static struct trip before;
    uint64_t outcome[GURTHAPEN_OUTCOME] = {1, 2, 3, 4}, kept[GURTHAPEN_OUTCOME];
    memcpy(kept, outcome, sizeof kept);
    memcpy(&before, t, sizeof before);
    IS(call(t, outcome, GURTHAPEN_OUTCOME), why);
    SAME(outcome, kept);
    IS(memcmp(t, &before, sizeof before), 0);
}

/* Numbers that are no symbol, kinds there are none of, tables past the end; the length comes first, a call's own refusal after. */
static void lists(void) {
    static const uint32_t kinds[] = {5, 9, 1u << 31, UINT32_MAX};
    static const uint32_t past[][2] = {{8, 1}, {0, 9}, {5, 4}, {9, 0}, {UINT32_MAX, 1}, {1, UINT32_MAX}, {UINT32_MAX, UINT32_MAX}};
    static struct trip t;
    size_t i, n;
    for (n = 1; n < SYMBOLS * GURTHAPEN_SYMBOL; n++)
        if (n % GURTHAPEN_SYMBOL != 0) {
            good(&t);
            t.symbols_n = n;
            malformed(&t, GURTHAPEN_LENGTH);
            t.symbols[0][0] = 9, t.bytes_n = 1276, t.caps_n = 0;
            malformed(&t, GURTHAPEN_LENGTH);
        }
    for (i = 0; i < SYMBOLS; i++) {
        for (n = 0; n < COUNT(kinds); n++) {
            good(&t);
            t.symbols[i][0] = kinds[n];
            malformed(&t, GURTHAPEN_NUMBER);
            t.bytes_n = 1276, t.offsets_n = 0, t.symbols[0][1] = 2;
            malformed(&t, GURTHAPEN_NUMBER);
        }
        for (n = 0; n < COUNT(past); n++) {
            good(&t);
            t.symbols[i][0] = GURTHAPEN_TABLE, t.symbols[i][3] = past[n][0], t.symbols[i][4] = past[n][1];
            malformed(&t, GURTHAPEN_NUMBER);
        }
    }
}

/* An outcome of another length, with all else wrong too: nothing is written. */
static void lengths(void) {
    static const size_t wrong[] = {0, 1, 3, 5, 6};
    static struct trip t, before;
    uint64_t outcome[6] = {1, 2, 3, 4, 5, 6}, kept[6];
    size_t i, k;
    memcpy(kept, outcome, sizeof kept);
    for (k = 0; k < 2; k++) {
        good(&t);
        if (k == 1)
            t.bytes_n = 1276, t.c = 9, t.offsets_n = 0, t.symbols[0][2] = 0, t.symbols[1][0] = 5;
        memcpy(&before, &t, sizeof before);
        for (i = 0; i < COUNT(wrong); i++) {
            IS(call(&t, outcome, wrong[i]), GURTHAPEN_LENGTH);
            SAME(outcome, kept);
        }
        IS(memcmp(&t, &before, sizeof before), 0);
    }
}

void try_trip(void) {
    ended();
    refusals();
    lists();
    lengths();
}

/* Every refusal of every call, and the order of them. A good call is spoilt in all ways that are listed for it, and in every choice of some of
 * them: the answer is the first that applies, in document 01's order, and all that was lent is as it was. */
#include "try.h"

#include <math.h>

enum { BYTES = 40, N = 16, K = 4 };

/* All that any call is lent or given. A list has one element more than it is lent, so that too long a one can be lent too. */
struct given {
    int64_t state[GURTHAPEN_STATE + 1];
    uint8_t bytes[BYTES + 1];
    uint8_t table[3];
    uint32_t value[2];
    int32_t counted[2];
    int32_t y[GURTHAPEN_ROOM + 1];
    int32_t offsets[GURTHAPEN_BANDS + 1], caps[GURTHAPEN_BANDS + 1], pulses[GURTHAPEN_BANDS + 1], fine[GURTHAPEN_BANDS + 1], priorities[GURTHAPEN_BANDS + 1];
    int32_t shown[GURTHAPEN_SHOWN + 1];
    float energies[GURTHAPEN_ENERGIES + 1];
    float shape[N + 1];
    uint64_t next[2];
    size_t length[2];
    uint32_t symbols[GURTHAPEN_SYMBOL];
    uint64_t outcome[GURTHAPEN_OUTCOME + 1];
    uint8_t line[4 + 9 * GURTHAPEN_ENERGIES]; /* E, the number 5, energies of 1 */
    uint8_t saved[GURTHAPEN_LINE];
    uint8_t out[GURTHAPEN_LISTED];
    size_t state_n, bytes_n, table_n, value_n, counted_n, y_n, offsets_n, caps_n, pulses_n, fine_n, priorities_n, shown_n, energies_n, shape_n;
    size_t next_n, length_n, line_n, saved_n, out_n, symbols_n, outcome_n;
    uint32_t logp, ftb, ft, raw, bit, symbol, below, raw_value, fs, decay, n, k;
    int32_t z, index, band, cache_lm, bits, row_index;
    int32_t c, lm, start, end, trim, total, intensity, dual, previous, bandwidth, intra, left, places, count, spread, parts;
    float gain;
    uint64_t number;
};

static void good(struct given *g, int writes) {
    size_t i, n;
    memset(g, 0, sizeof *g);
    g->state_n = GURTHAPEN_STATE, g->bytes_n = BYTES, g->table_n = 3, g->value_n = g->counted_n = g->next_n = g->length_n = 1, g->y_n = GURTHAPEN_ROOM;
    g->offsets_n = g->caps_n = g->pulses_n = g->fine_n = g->priorities_n = GURTHAPEN_BANDS, g->shown_n = GURTHAPEN_SHOWN;
    g->energies_n = GURTHAPEN_ENERGIES, g->shape_n = N, g->saved_n = GURTHAPEN_LINE, g->out_n = GURTHAPEN_LISTED;
    g->symbols_n = GURTHAPEN_SYMBOL, g->outcome_n = GURTHAPEN_OUTCOME;
    g->table[0] = 2, g->table[1] = 1;
    g->logp = 3, g->ftb = 2, g->ft = 1000, g->raw = 5, g->bit = 1, g->symbol = 1, g->below = 999, g->raw_value = 31, g->fs = 72 << 7, g->decay = 127 << 6;
    g->n = N, g->k = K, g->y[1] = -3, g->y[5] = 1;
    g->z = -2, g->index = 23, g->band = 10, g->cache_lm = 1, g->bits = 100, g->row_index = 2;
    g->c = 2, g->lm = 1, g->start = 2, g->end = 19, g->trim = 5, g->total = 2000, g->intensity = 5, g->dual = 1, g->intra = 1, g->left = 3;
    g->places = N, g->count = K, g->parts = 4, g->gain = 0.5f;
    g->next[0] = g->number = 5;
    g->symbols[0] = GURTHAPEN_UNIFORM, g->symbols[1] = 999, g->symbols[2] = 1000;
    for (i = 0; i < GURTHAPEN_BANDS; i++)
        g->caps[i] = 1000;
    n = (size_t)sprintf((char *)g->line, "E\t5");
    for (i = 0; i < GURTHAPEN_ENERGIES; i++)
        n += (size_t)sprintf((char *)g->line + n, "\t3f800000");
    g->line_n = n;
    IS(writes ? gurthapen_enc_new(g->state, GURTHAPEN_STATE, g->bytes, BYTES) : gurthapen_dec_new(g->state, GURTHAPEN_STATE, g->bytes, BYTES), 0);
}

/* One way to spoil a call, and the refusal that it is. */
struct wrong {
    uint32_t answer;
    size_t place, size;
    const void *put;
    size_t right; /* of a list that has one length only: that length */
};

#define FIELD(field) offsetof(struct given, field), sizeof(((struct given *)0)->field)
#define SPOILT(field, value) (&(const __typeof__(((struct given *)0)->field)){value})
#define WRONG(answer, field, value) {answer, FIELD(field), SPOILT(field, value), 0}
#define SIZED(field, right) {GURTHAPEN_LENGTH, FIELD(field), SPOILT(field, (right)-1), right}

/* In document 01's order: of two that change the same place the first is put last, and stays. */
#define STATE_2 SIZED(state_n, GURTHAPEN_STATE), SIZED(bytes_n, BYTES), WRONG(GURTHAPEN_LENGTH, state[GURTHAPEN_STORAGE], BYTES - 2)
#define READER_1 WRONG(GURTHAPEN_NUMBER, state[GURTHAPEN_RNG], 1 << 23), WRONG(GURTHAPEN_NUMBER, state[GURTHAPEN_REM], -1)
#define WRITER_1 WRONG(GURTHAPEN_NUMBER, state[GURTHAPEN_RNG], 1 << 23), WRONG(GURTHAPEN_NUMBER, state[GURTHAPEN_EXT], 65536)
#define CLOSED_12 WRONG(GURTHAPEN_CLOSED_ALREADY, state[GURTHAPEN_CLOSED], 1)
#define END_4 WRONG(GURTHAPEN_PAST_END, state[GURTHAPEN_NBITS_TOTAL], 8 * BYTES + 32 + 33)

#define CALL(name, ...)                                                                                    \
    static uint32_t name(struct given *g) { return gurthapen_##name(__VA_ARGS__); }                             \
    static const struct wrong name##_wrong[]

/* A list, lent. */
#define L(list) g->list, g->list##_n

CALL(dec_new, L(state), L(bytes)) = {SIZED(state_n, GURTHAPEN_STATE)};
CALL(enc_new, L(state), L(bytes)) = {SIZED(state_n, GURTHAPEN_STATE)};
CALL(dec_bit_logp, L(state), L(bytes), g->logp, L(value)) = {STATE_2, SIZED(value_n, 1), READER_1, WRONG(GURTHAPEN_NUMBER, logp, 16), END_4};
CALL(dec_icdf, L(state), L(bytes), L(table), g->ftb, L(value)) = {
    STATE_2, SIZED(value_n, 1), WRONG(GURTHAPEN_LENGTH, table_n, 0), READER_1, WRONG(GURTHAPEN_NUMBER, ftb, 9), WRONG(GURTHAPEN_ENTRY, table[1], 2),
    WRONG(GURTHAPEN_ENTRY, table[2], 1), END_4};
CALL(dec_uint, L(state), L(bytes), g->ft, L(value)) = {STATE_2, SIZED(value_n, 1), READER_1, WRONG(GURTHAPEN_NUMBER, ft, 1), END_4};
CALL(dec_bits, L(state), L(bytes), g->raw, L(value)) = {STATE_2, SIZED(value_n, 1), READER_1, WRONG(GURTHAPEN_NUMBER, raw, 26), END_4};
CALL(dec_tell, L(state), L(value)) = {SIZED(state_n, GURTHAPEN_STATE), SIZED(value_n, 1), READER_1};
CALL(dec_tell_frac, L(state), L(value)) = {SIZED(state_n, GURTHAPEN_STATE), SIZED(value_n, 1), READER_1};
CALL(enc_bit_logp, L(state), L(bytes), g->bit, g->logp) = {STATE_2, WRITER_1, WRONG(GURTHAPEN_NUMBER, bit, 2), WRONG(GURTHAPEN_NUMBER, logp, 0),
    CLOSED_12, END_4};
CALL(enc_icdf, L(state), L(bytes), g->symbol, L(table), g->ftb) = {
    STATE_2, WRONG(GURTHAPEN_LENGTH, table_n, 0), WRITER_1, WRONG(GURTHAPEN_NUMBER, symbol, 3), WRONG(GURTHAPEN_NUMBER, ftb, 0),
    WRONG(GURTHAPEN_ENTRY, table[0], 4), CLOSED_12, END_4};
CALL(enc_uint, L(state), L(bytes), g->below, g->ft) = {STATE_2, WRITER_1, WRONG(GURTHAPEN_NUMBER, ft, 0), WRONG(GURTHAPEN_NUMBER, below, UINT32_MAX),
    CLOSED_12, END_4};
CALL(enc_bits, L(state), L(bytes), g->raw_value, g->raw) = {
    STATE_2, WRITER_1, WRONG(GURTHAPEN_NUMBER, raw, 0), WRONG(GURTHAPEN_NUMBER, raw_value, 1u << 31), CLOSED_12, END_4};
CALL(enc_close, L(state), L(bytes)) = {STATE_2, WRITER_1, CLOSED_12};
CALL(enc_tell, L(state), L(value)) = {SIZED(state_n, GURTHAPEN_STATE), SIZED(value_n, 1), WRITER_1};
CALL(enc_tell_frac, L(state), L(value)) = {SIZED(state_n, GURTHAPEN_STATE), SIZED(value_n, 1), WRITER_1};
CALL(laplace_decode, L(state), L(bytes), g->fs, g->decay, L(counted)) = {
    STATE_2, SIZED(counted_n, 1), READER_1, WRONG(GURTHAPEN_NUMBER, fs, 128), WRONG(GURTHAPEN_NUMBER, decay, 64), END_4};
CALL(laplace_encode, L(state), L(bytes), g->z, g->fs, g->decay, L(counted)) = {
    STATE_2, SIZED(counted_n, 1), WRITER_1, WRONG(GURTHAPEN_NUMBER, z, 32768), WRONG(GURTHAPEN_NUMBER, fs, 128), CLOSED_12, END_4};
CALL(decode_pulses, L(state), L(bytes), L(y), g->n, g->k, L(value)) = {
    STATE_2, SIZED(y_n, GURTHAPEN_ROOM), SIZED(value_n, 1), READER_1, WRONG(GURTHAPEN_NUMBER, n, 177), WRONG(GURTHAPEN_NUMBER, k, 129),
    WRONG(GURTHAPEN_COUNT, k, 128), END_4};
CALL(encode_pulses, L(state), L(bytes), L(y), g->n, g->k) = {STATE_2, SIZED(y_n, GURTHAPEN_ROOM), WRITER_1, WRONG(GURTHAPEN_NUMBER, n, 1),
    WRONG(GURTHAPEN_NUMBER, k, 0), WRONG(GURTHAPEN_COUNT, k, 128), WRONG(GURTHAPEN_SUM, y[15], 1), CLOSED_12, END_4};
CALL(get_pulses, g->index, L(value)) = {SIZED(value_n, 1), WRONG(GURTHAPEN_NUMBER, index, 41)};
CALL(bits2pulses, g->band, g->cache_lm, g->bits, L(value)) = {
    SIZED(value_n, 1), WRONG(GURTHAPEN_NUMBER, bits, 81601), WRONG(GURTHAPEN_NUMBER, band, 21), WRONG(GURTHAPEN_NUMBER, cache_lm, 4)};
CALL(pulses2bits, g->band, g->cache_lm, g->row_index, L(value)) = {
    SIZED(value_n, 1), WRONG(GURTHAPEN_NUMBER, band, -1), WRONG(GURTHAPEN_NUMBER, cache_lm, -2), WRONG(GURTHAPEN_INDEX, row_index, 41)};
#define ALLOC_1                                                                                                                            \
    WRONG(GURTHAPEN_NUMBER, c, 0), WRONG(GURTHAPEN_NUMBER, lm, 4), WRONG(GURTHAPEN_NUMBER, end, 22), WRONG(GURTHAPEN_NUMBER, trim, 11),   \
    WRONG(GURTHAPEN_NUMBER, total, 81601)
CALL(compute_allocation_read, L(state), L(bytes), g->c, g->lm, g->start, g->end, g->trim, g->total, L(offsets), L(caps), L(pulses), L(fine),
     L(priorities), L(shown)) = {SIZED(state_n, GURTHAPEN_STATE), SIZED(offsets_n, GURTHAPEN_BANDS), SIZED(caps_n, GURTHAPEN_BANDS),
    SIZED(pulses_n, GURTHAPEN_BANDS), SIZED(fine_n, GURTHAPEN_BANDS), SIZED(priorities_n, GURTHAPEN_BANDS), SIZED(shown_n, GURTHAPEN_SHOWN), ALLOC_1,
    WRONG(GURTHAPEN_ENTRY, offsets[20], -1), END_4};
CALL(compute_allocation_write, L(state), L(bytes), g->c, g->lm, g->start, g->end, g->trim, g->total, g->intensity, g->dual, g->previous,
     g->bandwidth, L(offsets), L(caps), L(pulses), L(fine), L(priorities), L(shown)) = {SIZED(bytes_n, BYTES), SIZED(shown_n, GURTHAPEN_SHOWN),
    SIZED(offsets_n, GURTHAPEN_BANDS), WRITER_1, WRONG(GURTHAPEN_NUMBER, start, 19), WRONG(GURTHAPEN_NUMBER, intensity, 20), WRONG(GURTHAPEN_NUMBER, dual, 2),
    WRONG(GURTHAPEN_ENTRY, caps[0], 32768), WRONG(GURTHAPEN_ENTRY, offsets[0], 81601), CLOSED_12, END_4};
CALL(unquant_coarse_energy, L(state), L(bytes), L(energies), g->c, g->lm, g->start, g->end, g->intra) = {STATE_2, SIZED(energies_n, GURTHAPEN_ENERGIES),
    READER_1, WRONG(GURTHAPEN_NUMBER, c, 3), WRONG(GURTHAPEN_NUMBER, lm, -1), WRONG(GURTHAPEN_NUMBER, start, -1), WRONG(GURTHAPEN_NUMBER, intra, 2),
    WRONG(GURTHAPEN_ENTRY, energies[41], NAN), END_4};
CALL(unquant_energy_finalise, L(state), L(bytes), L(energies), g->c, g->start, g->end, L(fine), L(priorities), g->left) = {STATE_2,
    SIZED(energies_n, GURTHAPEN_ENERGIES), SIZED(fine_n, GURTHAPEN_BANDS), SIZED(priorities_n, GURTHAPEN_BANDS), READER_1,
    WRONG(GURTHAPEN_NUMBER, c, INT32_MIN), WRONG(GURTHAPEN_NUMBER, end, 2), WRONG(GURTHAPEN_ENTRY, energies[0], -INFINITY),
    WRONG(GURTHAPEN_ENTRY, fine[20], 9), WRONG(GURTHAPEN_ENTRY, priorities[0], 2), END_4};
CALL(alg_unquant, L(state), L(bytes), L(shape), g->places, g->count, g->spread, g->parts, g->gain, L(value)) = {STATE_2, SIZED(shape_n, N),
    SIZED(value_n, 1), READER_1, WRONG(GURTHAPEN_NUMBER, count, 129), WRONG(GURTHAPEN_NUMBER, parts, 5), WRONG(GURTHAPEN_NUMBER, spread, 4),
    WRONG(GURTHAPEN_ENTRY, gain, 1.0000001f), WRONG(GURTHAPEN_COUNT, count, 128), WRONG(GURTHAPEN_ROTATION, spread, 1), END_4};
CALL(record_fresh, L(energies), L(next)) = {SIZED(energies_n, GURTHAPEN_ENERGIES), SIZED(next_n, 1)};
CALL(record_frame, L(energies), L(next), L(state), L(bytes), g->number, g->c, g->lm, g->start, g->end, g->intra) = {SIZED(energies_n, GURTHAPEN_ENERGIES),
    SIZED(next_n, 1), SIZED(state_n, GURTHAPEN_STATE), SIZED(bytes_n, BYTES), READER_1, WRONG(GURTHAPEN_NUMBER, intra, -1),
    WRONG(GURTHAPEN_NUMBER, next[0], 4294967296), WRONG(GURTHAPEN_NUMBER, number, 4294967295), WRONG(GURTHAPEN_ENTRY, energies[7], INFINITY),
    WRONG(GURTHAPEN_BELOW_NEXT, number, 4), WRONG(GURTHAPEN_ABOVE_NEXT, number, 6), END_4};
CALL(record_save, L(energies), g->next[0], L(saved), L(length)) = {SIZED(energies_n, GURTHAPEN_ENERGIES), WRONG(GURTHAPEN_LENGTH, saved_n, GURTHAPEN_LINE - 1),
    SIZED(length_n, 1), WRONG(GURTHAPEN_NUMBER, next[0], 4294967296), WRONG(GURTHAPEN_ENTRY, energies[20], NAN)};
CALL(record_restore, L(line), L(energies), L(next)) = {
    SIZED(energies_n, GURTHAPEN_ENERGIES), SIZED(next_n, 1), WRONG(GURTHAPEN_NUMBER, line[0], 'F'), WRONG(GURTHAPEN_NUMBER, line[2], '-'),
    WRONG(GURTHAPEN_ENTRY, line[4], '7')};
CALL(list, L(line), 1, L(out), L(length)) = {WRONG(GURTHAPEN_LENGTH, out_n, GURTHAPEN_LISTED - 1), SIZED(length_n, 1)};
/* what a call of the trip refuses is no refusal of the trip */
CALL(round_trip, L(bytes), L(symbols), L(table), g->c, g->lm, g->start, g->end, g->trim, g->total, g->intensity, g->dual, g->previous, g->bandwidth,
     L(offsets), L(caps), L(outcome)) = {SIZED(outcome_n, GURTHAPEN_OUTCOME), WRONG(0, symbols[2], 1), WRONG(0, offsets_n, 0), WRONG(0, c, 9),
    WRONG(0, bytes_n, 0)};

static const struct {
    const char *name;
    int writes;
    uint32_t (*call)(struct given *);
    const struct wrong *wrong;
    size_t wrongs;
} calls[] = {
#define READS(name) {#name, 0, name, LIST(name##_wrong)}
#define WRITES(name) {#name, 1, name, LIST(name##_wrong)}
    READS(dec_new), READS(dec_bit_logp), READS(dec_icdf), READS(dec_uint), READS(dec_bits), READS(dec_tell), READS(dec_tell_frac),
    WRITES(enc_new), WRITES(enc_bit_logp), WRITES(enc_icdf), WRITES(enc_uint), WRITES(enc_bits), WRITES(enc_close), WRITES(enc_tell),
    WRITES(enc_tell_frac), READS(laplace_decode), WRITES(laplace_encode), READS(decode_pulses), WRITES(encode_pulses), READS(get_pulses),
    READS(bits2pulses), READS(pulses2bits), READS(compute_allocation_read), WRITES(compute_allocation_write), READS(unquant_coarse_energy),
    READS(unquant_energy_finalise), READS(alg_unquant), READS(record_fresh), READS(record_frame), READS(record_save), READS(record_restore),
    READS(list), READS(round_trip),
};

/* The calls that are handed a state: what a storage is refused with that no count of bytes can be. Where bytes are lent it is unlike their
 * count; tell is lent none. */
static const struct {
    const char *name;
    int writes;
    uint32_t (*call)(struct given *);
    uint32_t answer;
} stored[] = {
#define STORED(name, writes) {#name, writes, name, GURTHAPEN_LENGTH}
#define TELLS(name, writes) {#name, writes, name, GURTHAPEN_NUMBER}
    STORED(dec_bit_logp, 0), STORED(dec_icdf, 0), STORED(dec_uint, 0), STORED(dec_bits, 0), TELLS(dec_tell, 0), TELLS(dec_tell_frac, 0),
    STORED(enc_bit_logp, 1), STORED(enc_icdf, 1), STORED(enc_uint, 1), STORED(enc_bits, 1), STORED(enc_close, 1), TELLS(enc_tell, 1),
    TELLS(enc_tell_frac, 1), STORED(laplace_decode, 0), STORED(laplace_encode, 1), STORED(decode_pulses, 0), STORED(encode_pulses, 1),
    STORED(compute_allocation_read, 0), STORED(compute_allocation_write, 1), STORED(unquant_coarse_energy, 0),
    STORED(unquant_energy_finalise, 0), STORED(alg_unquant, 0), STORED(record_frame, 0),
};

/* The answer is this one; a refusal leaves everything. */
static void answers(const char *name, uint32_t (*call)(struct given *), struct given *g, uint32_t want) {
    static struct given before;
    uint32_t got;
    memcpy(&before, g, sizeof before);
    got = call(g);
    tried++;
    if (got != want || (got != 0 && memcmp(g, &before, sizeof before) != 0)) {
        failed++;
        printf("%s: gurthapen_%s answered %u, not %u, or changed something\n", __FILE__, name, got, want);
    }
}

static void put(struct given *g, const struct wrong *w) {
    memcpy((char *)g + w->place, w->put, w->size);
}

void try_order(void) {
    static struct given right, g;
    size_t i, j;
    unsigned choice;

    for (i = 0; i < COUNT(calls); i++) {
        good(&right, calls[i].writes);
        for (choice = 0; choice < 1u << calls[i].wrongs; choice++) {
            uint32_t want = 0;
            memcpy(&g, &right, sizeof g);
            for (j = calls[i].wrongs; j-- > 0;)
                if (choice >> j & 1) {
                    put(&g, &calls[i].wrong[j]);
                    want = calls[i].wrong[j].answer;
                }
            answers(calls[i].name, calls[i].call, &g, want);
        }
        /* lists that are empty, or too long by one */
        for (j = 0; j < calls[i].wrongs; j++)
            if (calls[i].wrong[j].right != 0) {
                size_t lent[2] = {0, calls[i].wrong[j].right + 1};
                size_t k;
                for (k = 0; k < 2; k++) {
                    memcpy(&g, &right, sizeof g);
                    memcpy((char *)&g + calls[i].wrong[j].place, &lent[k], sizeof lent[k]);
                    answers(calls[i].name, calls[i].call, &g, GURTHAPEN_LENGTH);
                }
            }
    }

    for (i = 0; i < COUNT(stored); i++) {
        static const int64_t storages[] = {-1, (int64_t)1 << 32, INT64_MIN};
        static const size_t lent[] = {0, 1, BYTES};
        size_t k;
        for (j = 0; j < COUNT(storages); j++)
            for (k = 0; k < COUNT(lent); k++) {
                good(&g, stored[i].writes);
                g.state[GURTHAPEN_STORAGE] = storages[j], g.bytes_n = lent[k];
                answers(stored[i].name, stored[i].call, &g, stored[i].answer);
            }
    }

    /* what a band that has no row is refused with comes before the index */
    good(&right, 0);
    memcpy(&g, &right, sizeof g);
    g.band = 0, g.cache_lm = -1;
    answers("bits2pulses", bits2pulses, &g, GURTHAPEN_NO_ROW);
    answers("pulses2bits", pulses2bits, &g, GURTHAPEN_NO_ROW);
    g.row_index = -1;
    answers("pulses2bits", pulses2bits, &g, GURTHAPEN_NO_ROW);
    g.bits = -81601;
    answers("bits2pulses", bits2pulses, &g, GURTHAPEN_NUMBER);
}

/* Symbols, states, lookups and allocation: document 01's figures, what was written and read back, each refusal, damaged states. */
#include "try.h"

static const uint8_t three[] = {2, 1, 0};

/* One symbol of each kind written and read back, with the same tell. */
static void there_and_back(void) {
    uint8_t bytes[40];
    int64_t w[GURTHAPEN_STATE], d[GURTHAPEN_STATE];
    uint32_t tell, frac, value;
    int32_t counted, signed_value;
    int32_t y[GURTHAPEN_ROOM] = {0}, z[GURTHAPEN_ROOM] = {0};
    uint32_t energy;

    memset(bytes, 0xa5, sizeof bytes);
    IS(gurthapen_enc_new(LIST(w), LIST(bytes)), 0);
    IS(w[GURTHAPEN_STORAGE], 40);
    IS(w[GURTHAPEN_REM], -1);
    IS(w[GURTHAPEN_ERROR], 0);
    IS(gurthapen_enc_tell(LIST(w), &tell, 1), 0);
    IS(tell, 1);
    IS(gurthapen_enc_bit_logp(LIST(w), LIST(bytes), 1, 3), 0);
    IS(gurthapen_enc_icdf(LIST(w), LIST(bytes), 1, LIST(three), 2), 0);
    IS(gurthapen_enc_uint(LIST(w), LIST(bytes), 70000, 100000), 0);
    IS(gurthapen_enc_bits(LIST(w), LIST(bytes), 5, 3), 0);
    IS(gurthapen_laplace_encode(LIST(w), LIST(bytes), -2, 72 << 7, 127 << 6, &counted, 1), 0);
    IS(counted, -2);
    y[0] = 1;
    y[2] = -3;
    y[3] = 99; /* past n: not read */
    IS(gurthapen_encode_pulses(LIST(w), LIST(bytes), LIST(y), 3, 4), 0);
    IS(gurthapen_enc_tell(LIST(w), &tell, 1), 0);
    IS(gurthapen_enc_tell_frac(LIST(w), &frac, 1), 0);
    IS(frac >= 8 * (tell - 1), 1);
    IS(frac <= 8 * tell, 1);
    IS(gurthapen_enc_close(LIST(w), LIST(bytes)), 0);
    IS(w[GURTHAPEN_ERROR], 0);
    IS(w[GURTHAPEN_CLOSED], 1);

    IS(gurthapen_dec_new(LIST(d), LIST(bytes)), 0);
    IS(d[GURTHAPEN_CLOSED], 0);
    IS(gurthapen_dec_bit_logp(LIST(d), LIST(bytes), 3, &value, 1), 0);
    IS(value, 1);
    IS(gurthapen_dec_icdf(LIST(d), LIST(bytes), LIST(three), 2, &value, 1), 0);
    IS(value, 1);
    IS(gurthapen_dec_uint(LIST(d), LIST(bytes), 100000, &value, 1), 0);
    IS(value, 70000);
    IS(gurthapen_dec_bits(LIST(d), LIST(bytes), 3, &value, 1), 0);
    IS(value, 5);
    IS(gurthapen_laplace_decode(LIST(d), LIST(bytes), 72 << 7, 127 << 6, &signed_value, 1), 0);
    IS(signed_value, -2);
    z[3] = 7;
    IS(gurthapen_decode_pulses(LIST(d), LIST(bytes), LIST(z), 3, 4, &energy, 1), 0);
    IS(energy, 10);
    IS(z[0], 1);
    IS(z[1], 0);
    IS(z[2], -3);
    IS(z[3], 7);
    IS(gurthapen_dec_tell(LIST(d), &value, 1), 0);
    IS(value, tell);
    IS(gurthapen_dec_tell_frac(LIST(d), &value, 1), 0);
    IS(value, frac);
    IS(d[GURTHAPEN_ERROR], 0);
}

/* Each refusal, and that it leaves everything as it was. */
static void refusals(void) {
    static uint8_t many[1276];
    uint8_t bytes[4] = {1, 2, 3, 4}, before[4] = {1, 2, 3, 4};
    int64_t d[GURTHAPEN_STATE], w[GURTHAPEN_STATE], kept[GURTHAPEN_STATE];
    uint32_t value[2] = {77, 78};
    int32_t counted = 79, y[GURTHAPEN_ROOM] = {0};
    static const uint8_t rising[] = {1, 2, 0};

    IS(gurthapen_dec_new(LIST(d), LIST(bytes)), 0);
    IS(gurthapen_enc_new(LIST(w), LIST(bytes)), 0);

    memcpy(kept, d, sizeof kept);
    IS(gurthapen_dec_bit_logp(d, 11, LIST(bytes), 1, value, 1), GURTHAPEN_LENGTH);
    IS(gurthapen_dec_bit_logp(d, 0, LIST(bytes), 1, value, 1), GURTHAPEN_LENGTH);
    IS(gurthapen_dec_bit_logp(LIST(d), LIST(bytes), 1, value, 0), GURTHAPEN_LENGTH);
    IS(gurthapen_dec_bit_logp(LIST(d), LIST(bytes), 1, value, 2), GURTHAPEN_LENGTH);
    IS(gurthapen_dec_bit_logp(LIST(d), bytes, 3, 1, value, 1), GURTHAPEN_LENGTH);
    IS(gurthapen_dec_bit_logp(LIST(d), LIST(bytes), 0, value, 1), GURTHAPEN_NUMBER);
    IS(gurthapen_dec_bit_logp(LIST(d), LIST(bytes), 16, value, 1), GURTHAPEN_NUMBER);
    IS(gurthapen_dec_bit_logp(LIST(d), LIST(bytes), UINT32_MAX, value, 1), GURTHAPEN_NUMBER);
    IS(gurthapen_dec_icdf(LIST(d), LIST(bytes), three, 0, 2, value, 1), GURTHAPEN_LENGTH);
    IS(gurthapen_dec_icdf(LIST(d), LIST(bytes), LIST(three), 9, value, 1), GURTHAPEN_NUMBER);
    IS(gurthapen_dec_icdf(LIST(d), LIST(bytes), LIST(rising), 2, value, 1), GURTHAPEN_ENTRY);
    IS(gurthapen_dec_uint(LIST(d), LIST(bytes), 1, value, 1), GURTHAPEN_NUMBER);
    IS(gurthapen_dec_bits(LIST(d), LIST(bytes), 26, value, 1), GURTHAPEN_NUMBER);
    IS(gurthapen_dec_tell(d, 13, value, 1), GURTHAPEN_LENGTH);
    IS(gurthapen_laplace_decode(LIST(d), LIST(bytes), 128, 64, &counted, 1), GURTHAPEN_NUMBER);
    IS(gurthapen_decode_pulses(LIST(d), LIST(bytes), y, 175, 3, 4, value, 1), GURTHAPEN_LENGTH);
    IS(gurthapen_decode_pulses(LIST(d), LIST(bytes), LIST(y), 177, 4, value, 1), GURTHAPEN_NUMBER);
    IS(gurthapen_decode_pulses(LIST(d), LIST(bytes), LIST(y), 6, 96, value, 1), GURTHAPEN_COUNT);
    SAME(d, kept);
    IS(value[0], 77);
    IS(value[1], 78);
    IS(counted, 79);

    memcpy(kept, w, sizeof kept);
    IS(gurthapen_enc_bit_logp(w, 11, LIST(bytes), 1, 1), GURTHAPEN_LENGTH);
    IS(gurthapen_enc_bit_logp(LIST(w), LIST(bytes), 2, 1), GURTHAPEN_NUMBER);
    IS(gurthapen_enc_icdf(LIST(w), LIST(bytes), 3, LIST(three), 2), GURTHAPEN_NUMBER);
    IS(gurthapen_enc_uint(LIST(w), LIST(bytes), 5, 5), GURTHAPEN_NUMBER);
    IS(gurthapen_enc_bits(LIST(w), LIST(bytes), 8, 3), GURTHAPEN_NUMBER);
    IS(gurthapen_laplace_encode(LIST(w), LIST(bytes), 32768, 72 << 7, 127 << 6, &counted, 1), GURTHAPEN_NUMBER);
    IS(gurthapen_laplace_encode(LIST(w), LIST(bytes), INT32_MIN, 72 << 7, 127 << 6, &counted, 1), GURTHAPEN_NUMBER);
    IS(gurthapen_encode_pulses(LIST(w), LIST(bytes), LIST(y), 3, 4), GURTHAPEN_SUM);
    SAME(w, kept);
    SAME(bytes, before);
    IS(counted, 79);

    IS(gurthapen_enc_close(LIST(w), LIST(bytes)), 0);
    memcpy(kept, w, sizeof kept);
    memcpy(before, bytes, sizeof before);
    IS(gurthapen_enc_bits(LIST(w), LIST(bytes), 1, 1), GURTHAPEN_CLOSED_ALREADY);
    IS(gurthapen_enc_close(LIST(w), LIST(bytes)), GURTHAPEN_CLOSED_ALREADY);
    SAME(w, kept);
    SAME(bytes, before);

    IS(gurthapen_dec_new(LIST(d), LIST(many)), GURTHAPEN_NUMBER);
    IS(gurthapen_enc_new(LIST(d), LIST(many)), GURTHAPEN_NUMBER);
    IS(gurthapen_dec_new(LIST(d), many, 1275), 0);
    IS(gurthapen_dec_new(LIST(d), many, 0), 0);
    IS(gurthapen_dec_bits(LIST(d), many, 0, 25, value, 1), 0);
    IS(gurthapen_dec_bits(LIST(d), many, 0, 25, value, 1), 0);
    IS(gurthapen_dec_bits(LIST(d), many, 0, 25, value, 1), GURTHAPEN_PAST_END);
}

/* A number that is none of a state's, in every place. */
static void damaged_states(void) {
    static const int64_t wrong[] = {-1, 4294967296, INT64_MIN, INT64_MAX, INT64_MIN + 1, -4294967296};
    uint8_t bytes[8] = {9, 8, 7, 6, 5, 4, 3, 2};
    int64_t good[GURTHAPEN_STATE], d[GURTHAPEN_STATE], kept[GURTHAPEN_STATE];
    uint32_t value = 0;
    size_t place, i;

    IS(gurthapen_dec_new(LIST(good), LIST(bytes)), 0);
    for (place = 0; place <= GURTHAPEN_REM; place++)
        for (i = 0; i < COUNT(wrong); i++) {
            memcpy(d, good, sizeof d);
            d[place] = wrong[i];
            memcpy(kept, d, sizeof kept);
            IS(gurthapen_dec_bits(LIST(d), LIST(bytes), 1, &value, 1), place == GURTHAPEN_STORAGE ? GURTHAPEN_LENGTH : GURTHAPEN_NUMBER);
            IS(gurthapen_dec_tell(LIST(d), &value, 1), GURTHAPEN_NUMBER);
            SAME(d, kept);
        }
    /* any number but 0 is the error mark; a reader's closed mark is passed over */
    memcpy(d, good, sizeof d);
    d[GURTHAPEN_ERROR] = INT64_MIN;
    d[GURTHAPEN_CLOSED] = INT64_MAX;
    IS(gurthapen_dec_bits(LIST(d), LIST(bytes), 1, &value, 1), 0);
    IS(d[GURTHAPEN_ERROR], 1);
    IS(d[GURTHAPEN_CLOSED], 0);

    IS(gurthapen_enc_new(LIST(good), LIST(bytes)), 0);
    for (place = 0; place <= GURTHAPEN_REM; place++)
        for (i = 0; i < COUNT(wrong); i++) {
            if (place == GURTHAPEN_REM && wrong[i] == -1)
                continue; /* none held */
            memcpy(d, good, sizeof d);
            d[place] = wrong[i];
            memcpy(kept, d, sizeof kept);
            IS(gurthapen_enc_bits(LIST(d), LIST(bytes), 1, 1), place == GURTHAPEN_STORAGE ? GURTHAPEN_LENGTH : GURTHAPEN_NUMBER);
            IS(gurthapen_enc_close(LIST(d), LIST(bytes)), place == GURTHAPEN_STORAGE ? GURTHAPEN_LENGTH : GURTHAPEN_NUMBER);
            SAME(d, kept);
        }
    memcpy(d, good, sizeof d);
    d[GURTHAPEN_REM] = 256; /* inside it stands for none; outside it is no held byte */
    IS(gurthapen_enc_bits(LIST(d), LIST(bytes), 1, 1), GURTHAPEN_NUMBER);
    d[GURTHAPEN_REM] = 255;
    d[GURTHAPEN_ERROR] = 5;
    IS(gurthapen_enc_bits(LIST(d), LIST(bytes), 1, 1), 0);
    IS(d[GURTHAPEN_REM], 255);
    IS(d[GURTHAPEN_ERROR], -1);
    d[GURTHAPEN_CLOSED] = INT64_MIN;
    IS(gurthapen_enc_bits(LIST(d), LIST(bytes), 1, 1), GURTHAPEN_CLOSED_ALREADY);
}

static void lookups(void) {
    static const struct {
        int32_t i;
        uint32_t pulses;
    } known[] = {{7, 7}, {8, 8}, {23, 30}, {40, 128}};
    uint32_t value = 55;
    size_t i;

    for (i = 0; i < COUNT(known); i++) {
        IS(gurthapen_get_pulses(known[i].i, &value, 1), 0);
        IS(value, known[i].pulses);
    }
    value = 55;
    IS(gurthapen_get_pulses(-1, &value, 1), GURTHAPEN_NUMBER);
    IS(gurthapen_get_pulses(41, &value, 1), GURTHAPEN_NUMBER);
    IS(gurthapen_get_pulses(INT32_MIN, &value, 1), GURTHAPEN_NUMBER);
    IS(gurthapen_get_pulses(8, &value, 0), GURTHAPEN_LENGTH);
    IS(gurthapen_bits2pulses(21, 0, 0, &value, 1), GURTHAPEN_NUMBER);
    IS(gurthapen_bits2pulses(0, 4, 0, &value, 1), GURTHAPEN_NUMBER);
    IS(gurthapen_bits2pulses(0, 0, 81601, &value, 1), GURTHAPEN_NUMBER);
    IS(gurthapen_bits2pulses(0, -1, 0, &value, 1), GURTHAPEN_NO_ROW);
    IS(gurthapen_pulses2bits(0, -1, 41, &value, 1), GURTHAPEN_NO_ROW);
    IS(gurthapen_pulses2bits(20, 3, -1, &value, 1), GURTHAPEN_INDEX);
    IS(gurthapen_pulses2bits(20, 3, INT32_MAX, &value, 1), GURTHAPEN_INDEX);
    IS(value, 55);
    IS(gurthapen_pulses2bits(20, 3, 0, &value, 1), 0);
    IS(value, 0);
}

/* An allocation of band 0 alone, with the lister's cap, over a packet of zeros. */
static void allocation(void) {
    static const struct {
        int32_t c, total, pulses, fine, priority, balance;
    } known[] = {{1, 71, 8, 7, 0, 7}, {1, 100, 8, 8, 0, 28}, {1, -5, 0, 0, 1, 0}, {2, 7, 7, 0, 1, 0}};
    static const uint8_t zeros[8];
    int32_t offsets[GURTHAPEN_BANDS] = {0}, caps[GURTHAPEN_BANDS] = {0};
    int32_t pulses[GURTHAPEN_BANDS], fine[GURTHAPEN_BANDS], priorities[GURTHAPEN_BANDS], shown[GURTHAPEN_SHOWN];
    int32_t p2[GURTHAPEN_BANDS], f2[GURTHAPEN_BANDS], r2[GURTHAPEN_BANDS], shown2[GURTHAPEN_SHOWN];
    int64_t d[GURTHAPEN_STATE], w[GURTHAPEN_STATE];
    uint8_t bytes[100];
    uint32_t tell;
    size_t i, j;

    for (i = 0; i < COUNT(known); i++) {
        caps[0] = (224 + 64) * known[i].c / 4;
        for (j = 0; j < GURTHAPEN_BANDS; j++)
            pulses[j] = fine[j] = priorities[j] = -7;
        IS(gurthapen_dec_new(LIST(d), LIST(zeros)), 0);
        IS(gurthapen_compute_allocation_read(LIST(d), LIST(zeros), known[i].c, 0, 0, 1, 5, known[i].total, LIST(offsets), LIST(caps),
                                             LIST(pulses), LIST(fine), LIST(priorities), LIST(shown)),
           0);
        IS(pulses[0], known[i].pulses);
        IS(fine[0], known[i].fine);
        IS(priorities[0], known[i].priority);
        IS(shown[0], 1);
        IS(shown[1], known[i].balance);
        for (j = 1; j < GURTHAPEN_BANDS; j++) {
            IS(pulses[j], -7);
            IS(fine[j], -7);
            IS(priorities[j], -7);
        }
    }

    /* all bands, written and read back */
    for (j = 0; j < GURTHAPEN_BANDS; j++) {
        offsets[j] = j == 3 ? 80 : 0;
        caps[j] = 4000;
        pulses[j] = fine[j] = priorities[j] = p2[j] = f2[j] = r2[j] = 0;
    }
    memset(bytes, 0, sizeof bytes);
    IS(gurthapen_enc_new(LIST(w), LIST(bytes)), 0);
    IS(gurthapen_compute_allocation_write(LIST(w), LIST(bytes), 2, 3, 0, 21, 5, 6000, 12, 1, 0, 20, LIST(offsets), LIST(caps), LIST(pulses),
                                          LIST(fine), LIST(priorities), LIST(shown)),
       0);
    IS(gurthapen_enc_close(LIST(w), LIST(bytes)), 0);
    IS(gurthapen_dec_new(LIST(d), LIST(bytes)), 0);
    IS(gurthapen_compute_allocation_read(LIST(d), LIST(bytes), 2, 3, 0, 21, 5, 6000, LIST(offsets), LIST(caps), LIST(p2), LIST(f2), LIST(r2),
                                         LIST(shown2)),
       0);
    SAME(pulses, p2);
    SAME(fine, f2);
    SAME(priorities, r2);
    SAME(shown, shown2);
    IS(shown[2], 12);
    IS(shown[3], 1);
    IS(gurthapen_dec_tell(LIST(d), &tell, 1), 0);
    IS(tell > 1, 1);

    /* refusals leave the lists */
    IS(gurthapen_enc_new(LIST(w), LIST(bytes)), 0);
    IS(gurthapen_compute_allocation_write(LIST(w), LIST(bytes), 2, 3, 0, 21, 5, 6000, 22, 1, 0, 20, LIST(offsets), LIST(caps), LIST(pulses),
                                          LIST(fine), LIST(priorities), LIST(shown)),
       GURTHAPEN_NUMBER);
    IS(gurthapen_dec_new(LIST(d), LIST(bytes)), 0);
    IS(gurthapen_compute_allocation_read(LIST(d), LIST(bytes), 2, 3, 0, 21, 5, 81601, LIST(offsets), LIST(caps), LIST(pulses), LIST(fine),
                                         LIST(priorities), LIST(shown)),
       GURTHAPEN_NUMBER);
    IS(gurthapen_compute_allocation_read(LIST(d), LIST(bytes), 2, 3, 0, 21, 5, 6000, offsets, 20, LIST(caps), LIST(pulses), LIST(fine),
                                         LIST(priorities), LIST(shown)),
       GURTHAPEN_LENGTH);
    IS(gurthapen_compute_allocation_read(LIST(d), LIST(bytes), 2, 3, 0, 21, 5, 6000, LIST(offsets), LIST(caps), LIST(pulses), LIST(fine),
                                         LIST(priorities), shown, 3),
       GURTHAPEN_LENGTH);
    offsets[20] = -1;
    IS(gurthapen_compute_allocation_read(LIST(d), LIST(bytes), 2, 3, 0, 1, 5, 6000, LIST(offsets), LIST(caps), LIST(pulses), LIST(fine),
                                         LIST(priorities), LIST(shown)),
       GURTHAPEN_ENTRY);
    SAME(pulses, p2);
    SAME(fine, f2);
    SAME(priorities, r2);
    SAME(shown, shown2);
}

void try_coder(void) {
    there_and_back();
    refusals();
    damaged_states();
    lookups();
    allocation();
}

/* Energies and shapes: document 01's figures, values worked out by hand, what stays as it is, and energies that are none. */
#include "try.h"

#include <math.h>

/* The shares of the prediction for LM 0, a frame that is not intra. */
static const float coef = 29440.0f / 32768.0f, beta = 30147.0f / 32768.0f;

/* Floats that are no energies: NaNs of several bits, and the infinities. */
static const uint32_t wild[] = {0x7f800000, 0xff800000, 0x7fc00000, 0xffc00000, 0x7f800001, 0xffffffff, 0x7fa5a5a5};

static void no_energies(float *energies) {
    size_t i;
    for (i = 0; i < GURTHAPEN_ENERGIES; i++)
        energies[i] = 0.0f;
}

/* Laplace values written and found again as steps of energies, of both channels. */
static void coarse(void) {
    uint8_t bytes[20] = {0};
    int64_t w[GURTHAPEN_STATE], d[GURTHAPEN_STATE], kept[GURTHAPEN_STATE];
    float energies[GURTHAPEN_ENERGIES], before[GURTHAPEN_ENERGIES];
    int32_t counted;
    float first, second;
    size_t i;

    IS(gurthapen_enc_new(LIST(w), LIST(bytes)), 0);
    IS(gurthapen_laplace_encode(LIST(w), LIST(bytes), -2, 72 << 7, 127 << 6, &counted, 1), 0);
    IS(gurthapen_laplace_encode(LIST(w), LIST(bytes), 3, 72 << 7, 127 << 6, &counted, 1), 0);
    IS(gurthapen_laplace_encode(LIST(w), LIST(bytes), 1, 65 << 7, 129 << 6, &counted, 1), 0);
    IS(gurthapen_laplace_encode(LIST(w), LIST(bytes), 0, 65 << 7, 129 << 6, &counted, 1), 0);
    IS(gurthapen_enc_close(LIST(w), LIST(bytes)), 0);
    IS(w[GURTHAPEN_ERROR], 0);

    for (i = 0; i < GURTHAPEN_ENERGIES; i++)
        energies[i] = before[i] = 4.0f + (float)i;
    energies[21] = -20.0f; /* raised to -9 */
    energies[22] = -0.0f;
    IS(gurthapen_dec_new(LIST(d), LIST(bytes)), 0);
    IS(gurthapen_unquant_coarse_energy(LIST(d), LIST(bytes), LIST(energies), 2, 0, 0, 2, 0), 0);
    IS(bits_of(energies[0]), bits_of(coef * 4.0f + 0.0f + -2.0f));
    IS(bits_of(energies[0]), bits_of(1.59375f));
    IS(bits_of(energies[21]), bits_of(coef * -9.0f + 0.0f + 3.0f));
    first = 0.0f + -2.0f - beta * -2.0f;
    second = 0.0f + 3.0f - beta * 3.0f;
    IS(bits_of(energies[1]), bits_of(coef * 5.0f + first + 1.0f));
    IS(bits_of(energies[22]), bits_of(coef * -0.0f + second + 0.0f));
    for (i = 2; i < 21; i++) {
        IS(bits_of(energies[i]), bits_of(before[i]));
        IS(bits_of(energies[i + 21]), bits_of(before[i + 21]));
    }

    /* a mono frame neither uses nor changes channel 1, but its energies are looked at */
    memcpy(energies, before, sizeof energies);
    IS(gurthapen_dec_new(LIST(d), LIST(bytes)), 0);
    IS(gurthapen_unquant_coarse_energy(LIST(d), LIST(bytes), LIST(energies), 1, 0, 0, 1, 0), 0);
    IS(bits_of(energies[0]), bits_of(1.59375f));
    for (i = 1; i < GURTHAPEN_ENERGIES; i++)
        IS(bits_of(energies[i]), bits_of(before[i]));

    /* an empty packet: each step is -1, and nothing is read */
    no_energies(energies);
    IS(gurthapen_dec_new(LIST(d), bytes, 0), 0);
    memcpy(kept, d, sizeof kept);
    IS(gurthapen_unquant_coarse_energy(LIST(d), bytes, 0, LIST(energies), 1, 0, 0, 21, 1), 0);
    IS(bits_of(energies[0]), bits_of(-1.0f));
    IS(bits_of(energies[21]), 0);
    SAME(d, kept);
}

/* An energy that is none is refused wherever it stands, and stays bit for bit. */
static void wild_energies(void) {
    static const int32_t fine[GURTHAPEN_BANDS] = {0}, priorities[GURTHAPEN_BANDS] = {0};
    uint8_t bytes[20] = {0}, line[GURTHAPEN_LINE];
    int64_t d[GURTHAPEN_STATE], kept[GURTHAPEN_STATE];
    float energies[GURTHAPEN_ENERGIES], before[GURTHAPEN_ENERGIES];
    uint64_t next = 0;
    size_t i, place, length = 99;

    memset(line, 7, sizeof line);
    IS(gurthapen_dec_new(LIST(d), LIST(bytes)), 0);
    memcpy(kept, d, sizeof kept);
    for (place = 0; place < GURTHAPEN_ENERGIES; place++)
        for (i = 0; i < COUNT(wild); i++) {
            no_energies(energies);
            energies[place] = float_of(wild[i]);
            memcpy(before, energies, sizeof before);
            IS(gurthapen_unquant_coarse_energy(LIST(d), LIST(bytes), LIST(energies), 1, 0, 0, 1, 0), GURTHAPEN_ENTRY);
            IS(gurthapen_unquant_energy_finalise(LIST(d), LIST(bytes), LIST(energies), 1, 0, 1, LIST(fine), LIST(priorities), 0), GURTHAPEN_ENTRY);
            IS(gurthapen_record_frame(LIST(energies), &next, 1, LIST(d), LIST(bytes), 0, 1, 0, 0, 1, 0), GURTHAPEN_ENTRY);
            IS(gurthapen_record_save(LIST(energies), next, LIST(line), &length, 1), GURTHAPEN_ENTRY);
            SAME(energies, before);
            SAME(d, kept);
        }
    IS(next, 0);
    IS(length, 99);
    for (i = 0; i < sizeof line; i++)
        IS(line[i], 7);

    /* the greatest floats, and the smallest: finite, and they stay so */
    for (i = 0; i < GURTHAPEN_ENERGIES; i++)
        energies[i] = float_of(i % 4 == 0 ? 0x7f7fffff : i % 4 == 1 ? 0xff7fffff : i % 4 == 2 ? 1 : 0x80000001);
    IS(gurthapen_unquant_coarse_energy(LIST(d), LIST(bytes), LIST(energies), 2, 3, 0, 21, 0), 0);
    for (i = 0; i < GURTHAPEN_ENERGIES; i++)
        IS(isfinite(energies[i]) != 0, 1);
}

/* The bits that are left over. */
static void finalise(void) {
    static const uint8_t ones[2] = {0xff, 0xff};
    int32_t fine[GURTHAPEN_BANDS] = {7, 7, 8, 0}, priorities[GURTHAPEN_BANDS] = {1, 0, 0, 1};
    int64_t d[GURTHAPEN_STATE], fresh[GURTHAPEN_STATE];
    float energies[GURTHAPEN_ENERGIES], before[GURTHAPEN_ENERGIES];
    size_t i;

    IS(gurthapen_dec_new(LIST(fresh), LIST(ones)), 0);

    /* document 01's figure: 7 fine bits, bit 1, adds 1/512 */
    no_energies(energies);
    memcpy(d, fresh, sizeof d);
    IS(gurthapen_unquant_energy_finalise(LIST(d), LIST(ones), LIST(energies), 1, 0, 1, LIST(fine), LIST(priorities), 1), 0);
    IS(bits_of(energies[0]), bits_of(1.0f / 512.0f));
    for (i = 1; i < GURTHAPEN_ENERGIES; i++)
        IS(bits_of(energies[i]), 0);
    IS(d[GURTHAPEN_NBITS_TOTAL], fresh[GURTHAPEN_NBITS_TOTAL] + 1);

    /* priority 0 goes first, and a band at 8 fine bits takes none */
    no_energies(energies);
    memcpy(d, fresh, sizeof d);
    IS(gurthapen_unquant_energy_finalise(LIST(d), LIST(ones), LIST(energies), 1, 0, 4, LIST(fine), LIST(priorities), 2), 0);
    IS(bits_of(energies[0]), bits_of(1.0f / 512.0f));
    IS(bits_of(energies[1]), bits_of(1.0f / 512.0f));
    IS(bits_of(energies[2]), 0);
    IS(bits_of(energies[3]), 0);
    no_energies(energies);
    memcpy(d, fresh, sizeof d);
    IS(gurthapen_unquant_energy_finalise(LIST(d), LIST(ones), LIST(energies), 1, 0, 4, LIST(fine), LIST(priorities), INT32_MAX), 0);
    IS(bits_of(energies[3]), bits_of(0.25f));
    IS(d[GURTHAPEN_NBITS_TOTAL], fresh[GURTHAPEN_NBITS_TOTAL] + 3);

    /* two channels take two bits or none, and too few bits change nothing */
    no_energies(energies);
    memcpy(before, energies, sizeof before);
    memcpy(d, fresh, sizeof d);
    IS(gurthapen_unquant_energy_finalise(LIST(d), LIST(ones), LIST(energies), 2, 0, 21, LIST(fine), LIST(priorities), 1), 0);
    IS(gurthapen_unquant_energy_finalise(LIST(d), LIST(ones), LIST(energies), 1, 0, 21, LIST(fine), LIST(priorities), 0), 0);
    IS(gurthapen_unquant_energy_finalise(LIST(d), LIST(ones), LIST(energies), 1, 0, 21, LIST(fine), LIST(priorities), INT32_MIN), 0);
    SAME(energies, before);
    SAME(d, fresh);
    IS(gurthapen_unquant_energy_finalise(LIST(d), LIST(ones), LIST(energies), 2, 1, 2, LIST(fine), LIST(priorities), 3), 0);
    IS(bits_of(energies[1]), bits_of(1.0f / 512.0f));
    IS(bits_of(energies[22]), bits_of(1.0f / 512.0f));
    IS(d[GURTHAPEN_NBITS_TOTAL], fresh[GURTHAPEN_NBITS_TOTAL] + 2);
}

/* Shapes of pulse words that were written. */
static void shapes(void) {
    uint8_t bytes[20] = {0};
    int64_t w[GURTHAPEN_STATE], d[GURTHAPEN_STATE], fresh[GURTHAPEN_STATE];
    int32_t y[GURTHAPEN_ROOM] = {1, -1, 0, 0, 0, 1, 0, 1}; /* energy 4: the root is 2 */
    float shape[8], before[8];
    uint32_t mask, tell, wrote;
    size_t i;
    static const uint32_t gains[] = {0x7f800000, 0xff800000, 0x7fc00000, 0xffc00001, 0x3f800001, 0xbf800001, 0x7f7fffff};
    static const struct {
        int32_t b;
        uint32_t mask;
    } parts[] = {{1, 1}, {2, 3}, {4, 13}, {8, 163}};

    IS(gurthapen_enc_new(LIST(w), LIST(bytes)), 0);
    IS(gurthapen_encode_pulses(LIST(w), LIST(bytes), LIST(y), 8, 4), 0);
    IS(gurthapen_enc_tell_frac(LIST(w), &wrote, 1), 0);
    IS(gurthapen_enc_close(LIST(w), LIST(bytes)), 0);
    IS(gurthapen_dec_new(LIST(fresh), LIST(bytes)), 0);
    for (i = 0; i < COUNT(parts); i++) {
        size_t j;
        memset(shape, 0xff, sizeof shape);
        memcpy(d, fresh, sizeof d);
        mask = 77;
        IS(gurthapen_alg_unquant(LIST(d), LIST(bytes), LIST(shape), 8, 4, 3, parts[i].b, -0.75f, &mask, 1), 0);
        IS(mask, parts[i].mask);
        for (j = 0; j < 8; j++)
            IS(bits_of(shape[j]), bits_of((float)y[j] * (1.0f / 2.0f * -0.75f)));
        IS(gurthapen_dec_tell_frac(LIST(d), &tell, 1), 0);
        IS(tell, wrote);
    }

    /* refusals leave the shape, whatever its bits, the mask and the reader */
    memset(shape, 0xff, sizeof shape);
    memcpy(before, shape, sizeof before);
    memcpy(d, fresh, sizeof d);
    mask = 77;
    for (i = 0; i < COUNT(gains); i++)
        IS(gurthapen_alg_unquant(LIST(d), LIST(bytes), LIST(shape), 8, 4, 0, 1, float_of(gains[i]), &mask, 1), GURTHAPEN_ENTRY);
    IS(gurthapen_alg_unquant(LIST(d), LIST(bytes), LIST(shape), 8, 3, 1, 1, 1.0f, &mask, 1), GURTHAPEN_ROTATION);
    IS(gurthapen_alg_unquant(LIST(d), LIST(bytes), LIST(shape), 8, 128, 1, 1, 1.0f, &mask, 1), GURTHAPEN_COUNT);
    IS(gurthapen_alg_unquant(LIST(d), LIST(bytes), LIST(shape), -8, 4, 0, 1, 1.0f, &mask, 1), GURTHAPEN_LENGTH);
    IS(gurthapen_alg_unquant(LIST(d), LIST(bytes), LIST(shape), 9, 4, 0, 1, 1.0f, &mask, 1), GURTHAPEN_LENGTH);
    IS(gurthapen_alg_unquant(LIST(d), LIST(bytes), shape, 1, 1, 4, 0, 1, 1.0f, &mask, 1), GURTHAPEN_NUMBER);
    IS(gurthapen_alg_unquant(LIST(d), LIST(bytes), shape, 0, 0, 4, 0, 1, 1.0f, &mask, 1), GURTHAPEN_NUMBER);
    IS(gurthapen_alg_unquant(LIST(d), LIST(bytes), LIST(shape), 8, 4, 0, 3, 1.0f, &mask, 1), GURTHAPEN_NUMBER);
    IS(gurthapen_alg_unquant(LIST(d), LIST(bytes), LIST(shape), 8, 4, 0, 0, 1.0f, &mask, 1), GURTHAPEN_NUMBER);
    IS(gurthapen_alg_unquant(LIST(d), LIST(bytes), LIST(shape), 8, 4, 0, INT32_MIN, 1.0f, &mask, 1), GURTHAPEN_NUMBER);
    SAME(shape, before);
    SAME(d, fresh);
    IS(mask, 77);
    /* 2K = N is no rotation, and spread 0 never is one */
    IS(gurthapen_alg_unquant(LIST(d), LIST(bytes), LIST(shape), 8, 4, 1, 1, 1.0f, &mask, 1), 0);
    IS(gurthapen_alg_unquant(LIST(d), LIST(bytes), LIST(shape), 8, 1, 0, 8, -1.0f, &mask, 1), 0);
}

void try_frames(void) {
    coarse();
    wild_energies();
    finalise();
    shapes();
}

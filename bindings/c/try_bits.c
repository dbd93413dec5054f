/* Floats that a call leaves alone, bit for bit: every list of floats after refusals that come before and after it is read, whatever NaNs stand in it, and
 * the places outside the call's bands and channels after calls that are answered. The proofs have one NaN; that its bits stay is seen here. */
#include "try.h"

enum { N = 16, K = 4 };

/* NaNs, quiet and signalling, of both signs, with bits of their own; a minus zero; the infinities. */
static const uint32_t odd[] = {0x7fc00000, 0xffc00000, 0x7f800001, 0xff800001, 0x7fa5a5a5, 0xffa5a5a5, 0x7fe5a5a5, 0xffe5a5a5, 0x7fffffff, 0xffffffff,
                               0x80000000, 0x7f800000, 0xff800000};

/* Finite floats that a computation would easily change: minus zero, subnormals, the greatest. */
static const uint32_t finite[] = {0x80000000, 0x00000000, 0x00000001, 0x80000001, 0x007fffff, 0x807fffff, 0x7f7fffff, 0xff7fffff, 0x3f800001};

static uint8_t bytes[40];

/* A list of such floats, from any of them on. */
static void some(float *list, size_t n, const uint32_t *from, size_t count, size_t first) {
    size_t i;
    for (i = 0; i < n; i++)
        list[i] = float_of(from[(first + i) % count]);
}

/* NaNs throughout: refused for the lengths, for a number, and for the entries themselves. */
static void refused_nans(size_t first) {
    static const int32_t fine[GURTHAPEN_BANDS] = {0}, priorities[GURTHAPEN_BANDS] = {0};
    static const char wild[] = "\t7fc00000", tame[] = "\t3f800000";
    float energies[GURTHAPEN_ENERGIES + 1], before[GURTHAPEN_ENERGIES + 1], shape[N + 1], shape_before[N + 1];
    int64_t d[GURTHAPEN_STATE];
    uint64_t next[2] = {5, 5};
    uint32_t mask = 77;
    uint8_t line[GURTHAPEN_LINE + 1];
    size_t i, length[2] = {99, 99}, lent[] = {0, GURTHAPEN_ENERGIES - 1, GURTHAPEN_ENERGIES + 1};
    char saved[4 + 9 * GURTHAPEN_ENERGIES];

    some(LIST(energies), LIST(odd), first);
    memcpy(before, energies, sizeof before);
    some(LIST(shape), LIST(odd), first);
    memcpy(shape_before, shape, sizeof shape_before);
    IS(gurthapen_dec_new(LIST(d), LIST(bytes)), 0);

    IS(gurthapen_unquant_coarse_energy(LIST(d), bytes, sizeof bytes - 1, energies, GURTHAPEN_ENERGIES, 2, 1, 2, 19, 0), GURTHAPEN_LENGTH);
    IS(gurthapen_unquant_coarse_energy(LIST(d), LIST(bytes), energies, GURTHAPEN_ENERGIES, 2, 4, 2, 19, 0), GURTHAPEN_NUMBER);
    IS(gurthapen_unquant_coarse_energy(LIST(d), LIST(bytes), energies, GURTHAPEN_ENERGIES, 2, 1, 2, 19, 0), GURTHAPEN_ENTRY);
    IS(gurthapen_unquant_energy_finalise(LIST(d), LIST(bytes), energies, GURTHAPEN_ENERGIES, 2, 2, 19, fine, GURTHAPEN_BANDS - 1, LIST(priorities), 3),
       GURTHAPEN_LENGTH);
    IS(gurthapen_unquant_energy_finalise(LIST(d), LIST(bytes), energies, GURTHAPEN_ENERGIES, 3, 2, 19, LIST(fine), LIST(priorities), 3), GURTHAPEN_NUMBER);
    IS(gurthapen_unquant_energy_finalise(LIST(d), LIST(bytes), energies, GURTHAPEN_ENERGIES, 2, 2, 19, LIST(fine), LIST(priorities), 3), GURTHAPEN_ENTRY);
    IS(gurthapen_record_frame(energies, GURTHAPEN_ENERGIES, next, 1, LIST(d), bytes, sizeof bytes - 1, 5, 2, 1, 2, 19, 0), GURTHAPEN_LENGTH);
    IS(gurthapen_record_frame(energies, GURTHAPEN_ENERGIES, next, 1, LIST(d), LIST(bytes), 4294967295, 2, 1, 2, 19, 0), GURTHAPEN_NUMBER);
    IS(gurthapen_record_frame(energies, GURTHAPEN_ENERGIES, next, 1, LIST(d), LIST(bytes), 5, 2, 1, 2, 19, 0), GURTHAPEN_ENTRY);
    IS(gurthapen_record_frame(energies, GURTHAPEN_ENERGIES, next, 1, LIST(d), LIST(bytes), 4, 2, 1, 2, 19, 0), GURTHAPEN_ENTRY);
    IS(gurthapen_record_save(energies, GURTHAPEN_ENERGIES, 5, line, GURTHAPEN_LINE - 1, length, 1), GURTHAPEN_LENGTH);
    IS(gurthapen_record_save(energies, GURTHAPEN_ENERGIES, 4294967296, line, GURTHAPEN_LINE, length, 1), GURTHAPEN_NUMBER);
    IS(gurthapen_record_save(energies, GURTHAPEN_ENERGIES, 5, line, GURTHAPEN_LINE, length, 1), GURTHAPEN_ENTRY);
    IS(gurthapen_record_fresh(energies, GURTHAPEN_ENERGIES, next, 2), GURTHAPEN_LENGTH);

    /* a good line, one that is malformed in its last field, and one whose last energy is a NaN */
    memcpy(saved, "E\t5", 3);
    for (i = 0; i < GURTHAPEN_ENERGIES; i++)
        memcpy(saved + 3 + 9 * i, tame, 9);
    IS(gurthapen_record_restore((uint8_t *)saved, 3 + 9 * GURTHAPEN_ENERGIES, energies, GURTHAPEN_ENERGIES, next, 2), GURTHAPEN_LENGTH);
    saved[3 + 9 * GURTHAPEN_ENERGIES - 1] = 'g';
    IS(gurthapen_record_restore((uint8_t *)saved, 3 + 9 * GURTHAPEN_ENERGIES, energies, GURTHAPEN_ENERGIES, next, 1), GURTHAPEN_NUMBER);
    memcpy(saved + 3 + 9 * (GURTHAPEN_ENERGIES - 1), wild, 9);
    IS(gurthapen_record_restore((uint8_t *)saved, 3 + 9 * GURTHAPEN_ENERGIES, energies, GURTHAPEN_ENERGIES, next, 1), GURTHAPEN_ENTRY);

    /* another length of the list of floats itself */
    for (i = 0; i < COUNT(lent); i++) {
        IS(gurthapen_unquant_coarse_energy(LIST(d), LIST(bytes), energies, lent[i], 2, 1, 2, 19, 0), GURTHAPEN_LENGTH);
        IS(gurthapen_unquant_energy_finalise(LIST(d), LIST(bytes), energies, lent[i], 2, 2, 19, LIST(fine), LIST(priorities), 3), GURTHAPEN_LENGTH);
        IS(gurthapen_record_frame(energies, lent[i], next, 1, LIST(d), LIST(bytes), 5, 2, 1, 2, 19, 0), GURTHAPEN_LENGTH);
        IS(gurthapen_record_save(energies, lent[i], 5, line, GURTHAPEN_LINE, length, 1), GURTHAPEN_LENGTH);
        IS(gurthapen_record_restore((uint8_t *)saved, 3 + 9 * GURTHAPEN_ENERGIES, energies, lent[i], next, 1), GURTHAPEN_LENGTH);
        IS(gurthapen_record_fresh(energies, lent[i], next, 1), GURTHAPEN_LENGTH);
    }
    SAME(energies, before);
    IS(next[0], 5);
    IS(length[0], 99);

    /* a shape is never read: every refusal of the call leaves it */
    IS(gurthapen_alg_unquant(LIST(d), LIST(bytes), shape, N + 1, N, K, 0, 4, 0.5f, &mask, 1), GURTHAPEN_LENGTH);
    IS(gurthapen_alg_unquant(LIST(d), bytes, sizeof bytes - 1, shape, N, N, K, 0, 4, 0.5f, &mask, 1), GURTHAPEN_LENGTH);
    IS(gurthapen_alg_unquant(LIST(d), LIST(bytes), shape, N, N, K, 4, 4, 0.5f, &mask, 1), GURTHAPEN_NUMBER);
    for (i = 0; i < COUNT(odd); i++)
        if (odd[i] != 0x80000000)
            IS(gurthapen_alg_unquant(LIST(d), LIST(bytes), shape, N, N, K, 0, 4, float_of(odd[i]), &mask, 1), GURTHAPEN_ENTRY);
    IS(gurthapen_alg_unquant(LIST(d), LIST(bytes), shape, N, N, 128, 0, 4, 0.5f, &mask, 1), GURTHAPEN_COUNT);
    IS(gurthapen_alg_unquant(LIST(d), LIST(bytes), shape, N, N, K, 1, 4, 0.5f, &mask, 1), GURTHAPEN_ROTATION);
    d[GURTHAPEN_NBITS_TOTAL] = 8 * (int64_t)sizeof bytes + 32 + 33;
    IS(gurthapen_alg_unquant(LIST(d), LIST(bytes), shape, N, N, K, 0, 4, 0.5f, &mask, 1), GURTHAPEN_PAST_END);
    SAME(shape, shape_before);
    IS(mask, 77);
}

/* Finite floats: refused after the list was read whole, and then answered, with the places of the others as they were. */
static void finite_floats(size_t first) {
    static const int32_t fine[GURTHAPEN_BANDS] = {0}, priorities[GURTHAPEN_BANDS] = {0};
    float energies[GURTHAPEN_ENERGIES], before[GURTHAPEN_ENERGIES];
    int64_t d[GURTHAPEN_STATE], past[GURTHAPEN_STATE], fresh[GURTHAPEN_STATE];
    uint64_t next = 5;
    size_t i, call;
    int32_t c;

    some(LIST(before), LIST(finite), first);
    memcpy(energies, before, sizeof energies);
    IS(gurthapen_dec_new(LIST(fresh), LIST(bytes)), 0);
    memcpy(past, fresh, sizeof past);
    past[GURTHAPEN_NBITS_TOTAL] = 8 * (int64_t)sizeof bytes + 32 + 33;
    IS(gurthapen_unquant_coarse_energy(LIST(past), LIST(bytes), LIST(energies), 2, 1, 2, 19, 0), GURTHAPEN_PAST_END);
    IS(gurthapen_unquant_energy_finalise(LIST(past), LIST(bytes), LIST(energies), 2, 2, 19, LIST(fine), LIST(priorities), 3), GURTHAPEN_PAST_END);
    IS(gurthapen_record_frame(LIST(energies), &next, 1, LIST(past), LIST(bytes), 5, 2, 1, 2, 19, 0), GURTHAPEN_PAST_END);
    memcpy(d, fresh, sizeof d);
    IS(gurthapen_record_frame(LIST(energies), &next, 1, LIST(d), LIST(bytes), 4, 2, 1, 2, 19, 0), GURTHAPEN_BELOW_NEXT);
    IS(gurthapen_record_frame(LIST(energies), &next, 1, LIST(d), LIST(bytes), 6, 2, 1, 2, 19, 0), GURTHAPEN_ABOVE_NEXT);
    SAME(energies, before);
    IS(next, 5);

    for (call = 0; call < 3; call++)
        for (c = 1; c <= 2; c++) {
            memcpy(energies, before, sizeof energies);
            memcpy(d, fresh, sizeof d);
            next = 5;
            IS(call == 0   ? gurthapen_unquant_coarse_energy(LIST(d), LIST(bytes), LIST(energies), c, 1, 2, 19, 0)
               : call == 1 ? gurthapen_unquant_energy_finalise(LIST(d), LIST(bytes), LIST(energies), c, 2, 19, LIST(fine), LIST(priorities), 100)
                           : gurthapen_record_frame(LIST(energies), &next, 1, LIST(d), LIST(bytes), 5, c, 1, 2, 19, 0),
               0);
            for (i = 0; i < GURTHAPEN_ENERGIES; i++)
                if (i / 21 >= (size_t)c || i % 21 < 2 || i % 21 >= 19)
                    IS(bits_of(energies[i]), bits_of(before[i]));
        }
}

void try_bits(void) {
    size_t i;
    for (i = 0; i < COUNT(odd); i++)
        refused_nans(i);
    for (i = 0; i < COUNT(finite); i++)
        finite_floats(i);
}

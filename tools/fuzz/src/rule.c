#include "rule.h"

#include <math.h>

int all_within(const int32_t *list, size_t n, int32_t lo, int32_t hi) {
    size_t i;
    for (i = 0; i < n; i++)
        if (!within(list[i], lo, hi))
            return 0;
    return 1;
}

int all_finite(const float *list, size_t n) {
    size_t i;
    for (i = 0; i < n; i++)
        if (!isfinite(list[i]))
            return 0;
    return 1;
}

/* ---- states: storage, end_offs, end_window, nend_bits, nbits_total, offs, rng, val, ext, rem, error, closed */

static int words(const int64_t *s, size_t n) {
    size_t i;
    for (i = 0; i < n; i++)
        if (!within(s[i], 0, UINT32_MAX))
            return 0;
    return 1;
}

static int counts_ok(const int64_t *s) {
    return s[0] <= 1275 && s[6] > 1 << 23 && s[6] <= INT64_C(1) << 31 && s[3] <= 32 && within(s[4], 33, 65535);
}

int reader_ok(const int64_t *s) {
    return words(s, 10) && counts_ok(s) && s[7] < s[6] && s[5] <= s[0] && s[1] <= s[0] && s[9] <= 255;
}

int writer_ok(const int64_t *s) {
    return words(s, 9) && counts_ok(s) && s[5] + s[1] <= s[0] && s[7] + s[6] < INT64_C(1) << 32 && within(s[9], -1, 255) && s[8] <= 65535;
}

int64_t tell_of(const int64_t *s) {
    int digits = 0;
    while (s[6] >> digits != 0)
        digits++;
    return s[4] - digits;
}

/* 2, 1, 3, the call's special one, 12, 4: the first that applies. */
static uint32_t first(int lengths, int numbers, int lists, uint32_t special, int is_open, int tell_fits) {
    return !lengths ? 2 : !numbers ? 1 : !lists ? 3 : special != 0 ? special : !is_open ? 12 : !tell_fits ? 4 : 0;
}

uint32_t refusal_of_reader(const int64_t *s, size_t state_n, size_t bytes_n, int lengths, int numbers, int lists, uint32_t special) {
    int sized = state_n == 12 && lengths && s[0] == (int64_t)bytes_n;
    int good = sized && reader_ok(s);
    return first(sized, good && numbers, lists, special, 1, good && tell_of(s) <= 8 * s[0] + 32);
}

uint32_t refusal_of_writer(const int64_t *s, size_t state_n, size_t bytes_n, int lengths, int numbers, int lists, uint32_t special) {
    int sized = state_n == 12 && lengths && s[0] == (int64_t)bytes_n;
    int good = sized && writer_ok(s);
    return first(sized, good && numbers, lists, special, sized && s[11] == 0, good && tell_of(s) <= 8 * s[0] + 32);
}

/* ---- symbols */

int table_ok(const uint8_t *table, size_t n, uint32_t ftb) {
    size_t i;
    if (n == 0 || !within(ftb, 1, 8) || table[0] >= 1u << ftb || table[n - 1] != 0)
        return 0;
    for (i = 1; i < n; i++)
        if (table[i] >= table[i - 1])
            return 0;
    return 1;
}

/* The coarse-energy model: LM 0..3, each with prediction and then intra, 21 pairs each. */
static const uint8_t model[336] = {
    72, 127, 65, 129, 66, 128, 65, 128, 64, 128, 62, 128, 64, 128, 64, 128, 92, 78, 92, 79, 92, 78,
    90, 79, 116, 41, 115, 40, 114, 40, 132, 26, 132, 26, 145, 17, 161, 12, 176, 10, 177, 11,
    24, 179, 48, 138, 54, 135, 54, 132, 53, 134, 56, 133, 55, 132, 55, 132, 61, 114, 70, 96, 74, 88,
    75, 88, 87, 74, 89, 66, 91, 67, 100, 59, 108, 50, 120, 40, 122, 37, 97, 43, 78, 50,
    83, 78, 84, 81, 88, 75, 86, 74, 87, 71, 90, 73, 93, 74, 93, 74, 109, 40, 114, 36, 117, 34,
    117, 34, 143, 17, 145, 18, 146, 19, 162, 12, 165, 10, 178, 7, 189, 6, 190, 8, 177, 9,
    23, 178, 54, 115, 63, 102, 66, 98, 69, 99, 74, 89, 71, 91, 73, 91, 78, 89, 86, 80, 92, 66,
    93, 64, 102, 59, 103, 60, 104, 60, 117, 52, 123, 44, 138, 35, 133, 31, 97, 38, 77, 45,
    61, 90, 93, 60, 105, 42, 107, 41, 110, 45, 116, 38, 113, 38, 112, 38, 124, 26, 132, 27, 136, 19,
    140, 20, 155, 14, 159, 16, 158, 18, 170, 13, 177, 10, 187, 8, 192, 6, 175, 9, 159, 10,
    21, 178, 59, 110, 71, 86, 75, 85, 84, 83, 91, 66, 88, 73, 87, 72, 92, 75, 98, 72, 105, 58,
    107, 54, 115, 52, 114, 55, 112, 56, 129, 51, 132, 40, 150, 33, 140, 29, 98, 35, 77, 42,
    42, 121, 96, 66, 108, 43, 111, 40, 117, 44, 123, 32, 120, 36, 119, 33, 127, 33, 134, 34, 139, 21,
    147, 23, 152, 20, 158, 25, 154, 26, 166, 21, 173, 16, 184, 13, 184, 10, 150, 13, 139, 15,
    22, 178, 63, 114, 74, 82, 84, 83, 92, 82, 103, 62, 96, 72, 96, 67, 101, 73, 107, 72, 113, 55,
    118, 52, 125, 52, 118, 52, 117, 55, 135, 49, 137, 39, 157, 32, 145, 29, 97, 33, 77, 40};

void pair_of(unsigned pair, uint32_t *fs, uint32_t *decay) {
    *fs = (uint32_t)model[2 * pair] << 7;
    *decay = (uint32_t)model[2 * pair + 1] << 6;
}

int pair_ok(uint32_t fs, uint32_t decay) {
    unsigned i;
    for (i = 0; i < 168; i++)
        if ((uint32_t)model[2 * i] << 7 == fs && (uint32_t)model[2 * i + 1] << 6 == decay)
            return 1;
    return 0;
}

/* ---- pulses */

uint64_t count_of(unsigned n, unsigned k) {
    static uint64_t counts[177][129];
    static int made;
    unsigned i, j;
    if (!made) {
        for (i = 0; i < 177; i++)
            for (j = 0; j < 129; j++) {
                uint64_t v = j == 0 ? 1 : i == 0 ? 0 : counts[i - 1][j] + counts[i][j - 1] + counts[i - 1][j - 1];
                counts[i][j] = v > UINT32_MAX ? (uint64_t)UINT32_MAX + 1 : v;
            }
        made = 1;
    }
    return counts[n][k];
}

/* Row lengths of the pulse cache, LM -1..3. */
static const uint8_t rows[105] = {
    0, 0, 0, 0, 0, 0, 0, 0, 40, 40, 40, 40, 40, 40, 40, 40, 40, 40, 35, 21, 17,
    40, 40, 40, 40, 40, 40, 40, 40, 40, 40, 40, 40, 40, 40, 40, 35, 35, 25, 16, 11, 9,
    40, 40, 40, 40, 40, 40, 40, 40, 40, 40, 40, 40, 25, 25, 25, 16, 16, 12, 9, 7, 6,
    40, 40, 40, 40, 40, 40, 40, 40, 25, 25, 25, 25, 12, 12, 12, 9, 9, 7, 6, 5, 5,
    25, 25, 25, 25, 25, 25, 25, 25, 12, 12, 12, 12, 7, 7, 7, 6, 6, 5, 5, 4, 4};

int row_of(int lm, int band) {
    return rows[21 * (lm + 1) + band];
}

/* ---- bands */

int bands_ok(int32_t c, int32_t start, int32_t end) {
    return within(c, 1, 2) && 0 <= start && start < end && end <= 21;
}

int alloc_ok(int32_t c, int32_t lm, int32_t start, int32_t end, int32_t trim, int32_t total) {
    return bands_ok(c, start, end) && within(lm, 0, 3) && within(trim, 0, 10) && total <= 81600;
}

int coarse_ok(int32_t c, int32_t lm, int32_t start, int32_t end, int32_t intra) {
    return bands_ok(c, start, end) && within(lm, 0, 3) && within(intra, 0, 1);
}

/* Entries of the mode's cap table: LM 0..3, each for one channel and then two. */
static const uint8_t caps[168] = {
    224, 224, 224, 224, 224, 224, 224, 224, 160, 160, 160, 160, 185, 185, 185, 178, 178, 168, 134, 61, 37,
    224, 224, 224, 224, 224, 224, 224, 224, 240, 240, 240, 240, 207, 207, 207, 198, 198, 183, 144, 66, 40,
    160, 160, 160, 160, 160, 160, 160, 160, 185, 185, 185, 185, 193, 193, 193, 183, 183, 172, 138, 64, 38,
    240, 240, 240, 240, 240, 240, 240, 240, 207, 207, 207, 207, 204, 204, 204, 193, 193, 180, 143, 66, 40,
    185, 185, 185, 185, 185, 185, 185, 185, 193, 193, 193, 193, 193, 193, 193, 183, 183, 172, 138, 65, 39,
    207, 207, 207, 207, 207, 207, 207, 207, 204, 204, 204, 204, 201, 201, 201, 188, 188, 176, 141, 66, 40,
    193, 193, 193, 193, 193, 193, 193, 193, 193, 193, 193, 193, 194, 194, 194, 184, 184, 173, 139, 65, 39,
    204, 204, 204, 204, 204, 204, 204, 204, 201, 201, 201, 201, 198, 198, 198, 187, 187, 175, 140, 66, 40};

int32_t cap_of(int32_t c, int32_t lm, int band) {
    static const int32_t edges[22] = {0, 1, 2, 3, 4, 5, 6, 7, 8, 10, 12, 14, 16, 20, 24, 28, 34, 40, 48, 60, 78, 100};
    return (caps[21 * (2 * lm + c - 1) + band] + 64) * c * ((edges[band + 1] - edges[band]) << lm) / 4;
}

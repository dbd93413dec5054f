/* Document 01's rules, written out once more: when a call is refused, and with which number. */
#ifndef RULE_H
#define RULE_H

#include <stddef.h>
#include <stdint.h>

static inline int within(int64_t x, int64_t lo, int64_t hi) {
    return lo <= x && x <= hi;
}

/* Every entry of a list is lo..hi. */
int all_within(const int32_t *list, size_t n, int32_t lo, int32_t hi);
int all_finite(const float *list, size_t n);

/* A coder state's rule, and the bits it has used. */
int reader_ok(const int64_t *state);
int writer_ok(const int64_t *state);
int64_t tell_of(const int64_t *state);

/* The refusal of a call on a state list of so many numbers and so many bytes, 0 for none. lengths, numbers, lists: whether the other lengths (2),
 * numbers (1) and entries (3) are right; special: the first of 5 to 11, 0 for none. */
uint32_t refusal_of_reader(const int64_t *state, size_t state_n, size_t bytes_n, int lengths, int numbers, int lists, uint32_t special);
uint32_t refusal_of_writer(const int64_t *state, size_t state_n, size_t bytes_n, int lengths, int numbers, int lists, uint32_t special);

/* A table's rule. */
int table_ok(const uint8_t *table, size_t n, uint32_t ftb);

/* A pair of the coarse-energy model; pair 0..167. */
int pair_ok(uint32_t fs, uint32_t decay);
void pair_of(unsigned pair, uint32_t *fs, uint32_t *decay);

/* V(N,K), 2^32 where it is 2^32 or more; N 0..176, K 0..128. */
uint64_t count_of(unsigned n, unsigned k);

/* How long the row of the pulse cache is, 0 where there is none; lm -1..3, band 0..20. */
int row_of(int lm, int band);

/* Bands, numbers of an allocation, of a coarse decode. */
int bands_ok(int32_t c, int32_t start, int32_t end);
int alloc_ok(int32_t c, int32_t lm, int32_t start, int32_t end, int32_t trim, int32_t total);
int coarse_ok(int32_t c, int32_t lm, int32_t start, int32_t end, int32_t intra);

/* The lister's cap of a band. */
int32_t cap_of(int32_t c, int32_t lm, int band);

/* ---- lines of text */

/* The next number and the energies of a saved line: 0, 1 (malformed) or 3 (an energy is not finite). */
uint32_t saved_line(const uint8_t *line, size_t n, uint64_t *next, float *energies);

/* A number in so many lowercase hex digits; how many there are. */
size_t in_hex(uint64_t value, size_t digits, char *text);

/* A saved line, and its length. */
size_t line_of(const float *energies, uint64_t next, char *line);

/* What a request of the lister asks; 0 where it is malformed. */
struct request {
    int32_t c, lm, start, end, trim, total;
    uint8_t packet[1275];
    size_t packet_n;
};
int request_line(const uint8_t *line, size_t n, struct request *asks);

#endif

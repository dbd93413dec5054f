/* What earlier calls left, to be handed in again: coders with their bytes, packets, records and saved lines. */
#ifndef POOL_H
#define POOL_H

#include "lend.h"

struct coder {
    uint8_t bytes[1275];
    size_t n;
    int64_t state[12];
    int usable; /* begun, not closed, tell not past its end */
};

struct record {
    float energies[42];
    uint64_t next;
};

struct line {
    uint8_t bytes[4096];
    size_t n;
};

struct coder *some_reader(void);
struct coder *some_writer(void);
struct record *some_record(void);
struct line *some_line(void);

/* Bytes for a new coder: any, or those that a writer closed. */
void some_packet(struct coder *c);
void keep_packet(const uint8_t *bytes, size_t n);

/* The coder's state and bytes, lent. Some are at random inside the rule; where they are spoilt, damaged, or of any numbers. */
struct lent *lend_state(const struct coder *c, int reads, int for_writing);
struct lent *lend_bytes(const struct coder *c, int for_writing);

/* An answered call left this; a refused one may show that the coder is spent. */
void keep_coder(struct coder *c, const struct lent *state, const struct lent *bytes, uint32_t answer);

/* Energies, lent: a record's, or any; where they are spoilt, with some that are none. */
struct lent *lend_energies(const struct record *r, int for_writing);

/* A list of 32-bit numbers lo..hi; where it is spoilt, with another among them. */
struct lent *lend_numbers(const char *name, size_t right, int32_t lo, int32_t hi);

/* A list for writing, filled at random. */
struct lent *lend_for_result(const char *name, size_t size, size_t right);

#endif

/* What the parts of the program share: a check, and how many were made. */
#ifndef TRY_H
#define TRY_H

#include "gurthapen.h"

#include <stdio.h>
#include <string.h>

extern unsigned tried, failed;

#define IS(got, want)                                                                                      \
    do {                                                                                                   \
        long long got_ = (long long)(got), want_ = (long long)(want);                                      \
        tried++;                                                                                           \
        if (got_ != want_) {                                                                               \
            failed++;                                                                                      \
            printf("%s:%d: %s is %lld, not %lld\n", __FILE__, __LINE__, #got, got_, want_);                \
        }                                                                                                  \
    } while (0)

#define COUNT(list) (sizeof(list) / sizeof((list)[0]))
#define LIST(list) (list), COUNT(list)

/* A state, or any list, is as it was. */
#define SAME(list, copy) IS(memcmp((list), (copy), sizeof(list)), 0)

/* The bits of a float: what it is compared by, so that 0 and -0 are not the same. */
static inline uint32_t bits_of(float x) {
    uint32_t bits;
    memcpy(&bits, &x, sizeof bits);
    return bits;
}

static inline float float_of(uint32_t bits) {
    float x;
    memcpy(&x, &bits, sizeof x);
    return x;
}

void try_coder(void);  /* try_coder.c: symbols, states, lookups, allocation */
void try_frames(void); /* try_frames.c: energies and shapes */
void try_record(void); /* try_record.c: the stream record, its lines, the lister */
void try_trip(void);   /* try_trip.c: the round trip */
void try_order(void);  /* try_order.c: every refusal of every call, and their order */
void try_guard(void);  /* try_guard.c: lengths are looked at before entries */
void try_bits(void);   /* try_bits.c: floats that are left alone, bit for bit */

#endif

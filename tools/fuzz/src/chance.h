/* Numbers from a seed, and how often a choice is spoilt. */
#ifndef CHANCE_H
#define CHANCE_H

#include <stddef.h>
#include <stdint.h>

void begin_chance(uint64_t seed);

/* 64 bits. */
uint64_t any(void);

/* 0..n-1. */
uint64_t below(uint64_t n);

static inline int one_in(uint64_t n) {
    return below(n) == 0;
}

#define ONE_OF(list) ((list)[below(sizeof(list) / sizeof((list)[0]))])

/* Before each call: three calls of four are calm, and none of their choices is spoilt; of the others one choice in six is. */
void new_mood(void);
int spoilt(void);

/* lo..hi, its ends often; where it is spoilt, a number beside or far from them, or any other. */
int32_t number(int32_t lo, int32_t hi);

/* The length of a list; where it is spoilt, 0, one less, one more, or a large one. */
size_t length_of(size_t right);

#endif

/* Every exported call, and what is counted of it. */
#ifndef CALLS_H
#define CALLS_H

#include "gurthapen.h"
#include "chance.h"
#include "lend.h"
#include "pool.h"
#include "rule.h"

#define EVERY_CALL(X)                                                                                                                       \
    X(dec_new) X(dec_bit_logp) X(dec_icdf) X(dec_uint) X(dec_bits) X(dec_tell) X(dec_tell_frac)                                             \
    X(enc_new) X(enc_bit_logp) X(enc_icdf) X(enc_uint) X(enc_bits) X(enc_close) X(enc_tell) X(enc_tell_frac)                                \
    X(laplace_decode) X(laplace_encode) X(decode_pulses) X(encode_pulses) X(get_pulses) X(bits2pulses) X(pulses2bits)                       \
    X(compute_allocation_read) X(compute_allocation_write) X(unquant_coarse_energy) X(unquant_energy_finalise) X(alg_unquant)               \
    X(record_fresh) X(record_order) X(record_frame) X(record_save) X(record_restore) X(list) X(round_trip)

enum which {
#define X(name) CALL_##name,
    EVERY_CALL(X)
#undef X
    CALLS
};

/* try_NAME makes one call of gurthapen_NAME at random and looks at all it left. */
#define X(name) void try_##name(void);
EVERY_CALL(X)
#undef X

/* A coder that can be used: one that is closed, or whose tell is past its end, is mostly begun anew first. */
struct coder *fresh_reader(void);
struct coder *fresh_writer(void);

/* A reader's state after an answered call; the refusal of a read, by document 01's rule. */
void look_at_reader(const struct lent *state, size_t bytes);
uint32_t refused_read(const struct lent *state, const struct lent *bytes, int lengths, int numbers, int lists, uint32_t special);

/* What a symbol is made of: a table's entries, at most 256, and how many there are; a bound and a number below it; a pair of the Laplace model. */
size_t some_table(uint32_t ftb, uint8_t *entries);
uint32_t some_bound(void);
uint32_t below_bound(uint32_t ft);
void some_pair(uint32_t *fs, uint32_t *decay);

/* What an allocation is asked, and what an encoder wishes. */
struct asked {
    int32_t c, lm, start, end, trim, total;
    struct lent *offsets, *caps, *pulses, *fine, *priorities, *shown;
};
struct wishes {
    int32_t intensity, dual, previous, bandwidth;
};
void ask(struct asked *q); /* its numbers, and the lists that are lent for reading */
void wish(const struct asked *q, struct wishes *h);

/* Requests of the lister that were answered, and those of them that were answered by an allocation. */
extern uint64_t listings, allocations;

/* Round trips that agreed, that were not closed, and that were refused, by the call that refused. */
extern uint64_t agreed, not_closed, refused_by[4];

/* One call: what it answered, which must be `want`. */
void enter(enum which call);
uint32_t leave(uint32_t answer, uint32_t want);
#define CALL(name, want, ...) (enter(CALL_##name), hide((want) == 2), leave(gurthapen_##name(__VA_ARGS__), want))

/* What is left is as it must be. */
#define MUST(test)                                                                                                                          \
    do {                                                                                                                                    \
        if (!(test))                                                                                                                        \
            wrong("an answer is wrong", #test);                                                                                             \
    } while (0)

#endif

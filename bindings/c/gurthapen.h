/*
 * The range coder of CELT (RFC 6716), its Laplace values, pulse words, lookups, bit allocation, energies and shapes, the stream record, the
 * lister and the round trip: what libgurthapen.a has. bindings/archive, run in the repository, proves every call and writes
 * crates/gurthapen_c/out/libgurthapen.a, for x86-64 Linux.
 *
 * Every call answers 0, or the number of a refusal (enum gurthapen_refusal), and then every list is as it was. It takes any number and any
 * length.
 *
 * A list is a pointer and the count of its elements. What is left to the caller, since C cannot tell:
 *   - the pointer is not NULL, also where the count is 0, is aligned for its type, and points to that many elements;
 *   - a list that the call may write to (one without const) overlaps no other list of the same call.
 *
 * A coder's state is a list of GURTHAPEN_STATE numbers (enum gurthapen_place); its bytes are lent beside it, to every call the same ones. A
 * state may be copied, stored and handed in again. A list of another length, or bytes of another count than the state's storage, is
 * GURTHAPEN_LENGTH; a storage that no count can be, one below 0 or of more than 32 bits, is unlike every count. Of a call that is lent no
 * bytes it is GURTHAPEN_NUMBER.
 */
#ifndef GURTHAPEN_H
#define GURTHAPEN_H

#include <stddef.h>
#include <stdint.h>

#ifdef __cplusplus
extern "C" {
#endif

/* How many elements a list has. */
enum {
    GURTHAPEN_STATE = 12,    /* a coder's state */
    GURTHAPEN_VALUE = 1,     /* a list for one result */
    GURTHAPEN_BANDS = 21,    /* offsets, caps, pulses, fine bits, priorities */
    GURTHAPEN_SHOWN = 4,     /* coded bands, balance, intensity, dual stereo */
    GURTHAPEN_ROOM = 176,    /* the places of a pulse vector */
    GURTHAPEN_ENERGIES = 42, /* the energies of two channels; channel 1 from place 21 */
    GURTHAPEN_LINE = 390,    /* or more: bytes for a saved record's line */
    GURTHAPEN_LISTED = 1200, /* or more: bytes for the lister's answer to a line */
    GURTHAPEN_SYMBOL = 5,    /* the numbers of one symbol of a round trip */
    GURTHAPEN_OUTCOME = 4    /* how a round trip ended (enum gurthapen_outcome) */
};

/* What stands where in a state. */
enum gurthapen_place {
    GURTHAPEN_STORAGE,
    GURTHAPEN_END_OFFS,
    GURTHAPEN_END_WINDOW,
    GURTHAPEN_NEND_BITS,
    GURTHAPEN_NBITS_TOTAL,
    GURTHAPEN_OFFS,
    GURTHAPEN_RNG,
    GURTHAPEN_VAL,
    GURTHAPEN_EXT,
    GURTHAPEN_REM,   /* a writer's is -1 where it holds no byte */
    GURTHAPEN_ERROR, /* 0; a reader's mark is 1, a writer's -1 */
    GURTHAPEN_CLOSED /* 1 in a writer that was closed */
};

/* Why a call was refused. Of several that apply the first is given, in the order of this list. */
enum gurthapen_refusal {
    GURTHAPEN_LENGTH = 2,          /* a list or buffer that is lent has a wrong length */
    GURTHAPEN_NUMBER = 1,          /* a number that is outside its domain, or a malformed line */
    GURTHAPEN_ENTRY = 3,           /* an entry of a list, an energy or the gain is out of range, also an entry that no band uses */
    GURTHAPEN_NO_ROW = 5,          /* the pulse cache has no row for this band and LM */
    GURTHAPEN_INDEX = 6,           /* the row of the band and LM has no such index of pulses */
    GURTHAPEN_COUNT = 7,           /* V(N,K), how many vectors there are, does not fit 32 bits */
    GURTHAPEN_SUM = 8,             /* a vector that is to be written has not K pulses */
    GURTHAPEN_ROTATION = 9,        /* 2K < N with a spread that is not 0, where the shape would be rotated */
    GURTHAPEN_BELOW_NEXT = 10,     /* the frame number is below the record's next number */
    GURTHAPEN_ABOVE_NEXT = 11,     /* the frame number is above the record's next number */
    GURTHAPEN_CLOSED_ALREADY = 12, /* the writer was closed before */
    GURTHAPEN_PAST_END = 4         /* tell was above 8 * storage + 32 before the call */
};

/* ---- reading. Refused as GURTHAPEN_LENGTH, GURTHAPEN_NUMBER and, where a symbol is read, GURTHAPEN_PAST_END; a table as
 *      GURTHAPEN_ENTRY too */

/* A new reader of a packet of at most 1,275 bytes. */
uint32_t gurthapen_dec_new(int64_t *state, size_t state_n, const uint8_t *packet, size_t packet_n);

/* One bit that is 1 with a probability of 1 in 2^logp, logp 1..15. */
uint32_t gurthapen_dec_bit_logp(int64_t *state, size_t state_n, const uint8_t *packet, size_t packet_n, uint32_t logp, uint32_t *value,
                                size_t value_n);

/* A symbol of a table of 2^ftb places, ftb 1..8: strictly falling to 0, the first entry below 2^ftb. */
uint32_t gurthapen_dec_icdf(int64_t *state, size_t state_n, const uint8_t *packet, size_t packet_n, const uint8_t *table, size_t table_n,
                            uint32_t ftb, uint32_t *value, size_t value_n);

/* A number below ft, all alike, ft 2..4,294,967,295. */
uint32_t gurthapen_dec_uint(int64_t *state, size_t state_n, const uint8_t *packet, size_t packet_n, uint32_t ft, uint32_t *value,
                            size_t value_n);

/* n raw bits from the end of the packet, n 1..25. */
uint32_t gurthapen_dec_bits(int64_t *state, size_t state_n, const uint8_t *packet, size_t packet_n, uint32_t n, uint32_t *value,
                            size_t value_n);

/* How many bits, and how many eighths of a bit, are used. */
uint32_t gurthapen_dec_tell(const int64_t *state, size_t state_n, uint32_t *value, size_t value_n);
uint32_t gurthapen_dec_tell_frac(const int64_t *state, size_t state_n, uint32_t *value, size_t value_n);

/* ---- writing. Refused as reading is, and a write or close as GURTHAPEN_CLOSED_ALREADY; close is never refused as GURTHAPEN_PAST_END */

/* A new writer over at most 1,275 bytes. */
uint32_t gurthapen_enc_new(int64_t *state, size_t state_n, const uint8_t *buf, size_t buf_n);

/* One bit, which is 1 in one of 2^logp places. */
uint32_t gurthapen_enc_bit_logp(int64_t *state, size_t state_n, uint8_t *buf, size_t buf_n, uint32_t value, uint32_t logp);

/* The symbol s of a table of 2^ftb places. */
uint32_t gurthapen_enc_icdf(int64_t *state, size_t state_n, uint8_t *buf, size_t buf_n, uint32_t s, const uint8_t *table, size_t table_n,
                            uint32_t ftb);

/* A number fl below ft. */
uint32_t gurthapen_enc_uint(int64_t *state, size_t state_n, uint8_t *buf, size_t buf_n, uint32_t fl, uint32_t ft);

/* n raw bits of v. */
uint32_t gurthapen_enc_bits(int64_t *state, size_t state_n, uint8_t *buf, size_t buf_n, uint32_t v, uint32_t n);

/* The last bytes; nothing may be written after it. Where they do not fit, the call is finished and the error mark is set. */
uint32_t gurthapen_enc_close(int64_t *state, size_t state_n, uint8_t *buf, size_t buf_n);

/* How many bits, and how many eighths of a bit, are used. */
uint32_t gurthapen_enc_tell(const int64_t *state, size_t state_n, uint32_t *value, size_t value_n);
uint32_t gurthapen_enc_tell_frac(const int64_t *state, size_t state_n, uint32_t *value, size_t value_n);

/* ---- Laplace values; fs and decay are a pair of the coarse-energy model, or it is GURTHAPEN_NUMBER */

uint32_t gurthapen_laplace_decode(int64_t *state, size_t state_n, const uint8_t *packet, size_t packet_n, uint32_t fs, uint32_t decay,
                                  int32_t *value, size_t value_n);

/* z is -32,768..32,767; the value that counts as written goes into value. */
uint32_t gurthapen_laplace_encode(int64_t *state, size_t state_n, uint8_t *buf, size_t buf_n, int32_t z, uint32_t fs, uint32_t decay,
                                  int32_t *value, size_t value_n);

/* ---- pulse words: a vector of n places and k pulses, n 2..176, k 1..128, in the first n of GURTHAPEN_ROOM places. A count of 2^32 or more
 *      is GURTHAPEN_COUNT, a vector to encode whose sum is not k GURTHAPEN_SUM */

uint32_t gurthapen_decode_pulses(int64_t *state, size_t state_n, const uint8_t *packet, size_t packet_n, int32_t *y, size_t y_n,
                                 uint32_t n, uint32_t k, uint32_t *energy, size_t energy_n);
uint32_t gurthapen_encode_pulses(int64_t *state, size_t state_n, uint8_t *buf, size_t buf_n, const int32_t *y, size_t y_n, uint32_t n,
                                 uint32_t k);

/* ---- lookups of the pulse cache: i 0..40; band 0..20, lm -1..3, bits -81,600..81,600. A band without a row is GURTHAPEN_NO_ROW, pulses
 *      that are none of its indices GURTHAPEN_INDEX */

uint32_t gurthapen_get_pulses(int32_t i, uint32_t *value, size_t value_n);
uint32_t gurthapen_bits2pulses(int32_t band, int32_t lm, int32_t bits, uint32_t *value, size_t value_n);
uint32_t gurthapen_pulses2bits(int32_t band, int32_t lm, int32_t pulses, uint32_t *value, size_t value_n);

/* ---- bit allocation: c 1..2, lm 0..3, 0 <= start < end <= 21, trim 0..10, total up to 81,600; offsets 0..81,600, caps 0..32,767, or it is
 *      GURTHAPEN_ENTRY. The bands start..end-1 of pulses, fine and priorities are written; shown is coded bands, balance, intensity, dual
 *      stereo.
 *
 *      Offsets and caps are checked whole, outside start..end-1 too, where no band uses them. A decoder that leaves those unset (libopus
 *      leaves its offsets so) is refused as GURTHAPEN_ENTRY: set them to 0, or to any value in range, before the call. */

uint32_t gurthapen_compute_allocation_read(int64_t *state, size_t state_n, const uint8_t *packet, size_t packet_n, int32_t c, int32_t lm,
                                           int32_t start, int32_t end, int32_t trim, int32_t total, const int32_t *offsets,
                                           size_t offsets_n, const int32_t *caps, size_t caps_n, int32_t *pulses, size_t pulses_n,
                                           int32_t *fine, size_t fine_n, int32_t *priorities, size_t priorities_n, int32_t *shown,
                                           size_t shown_n);

/* With c = 2, intensity is start..end and dual 0 or 1; previous and bandwidth are any. */
uint32_t gurthapen_compute_allocation_write(int64_t *state, size_t state_n, uint8_t *buf, size_t buf_n, int32_t c, int32_t lm,
                                            int32_t start, int32_t end, int32_t trim, int32_t total, int32_t intensity, int32_t dual,
                                            int32_t previous, int32_t bandwidth, const int32_t *offsets, size_t offsets_n,
                                            const int32_t *caps, size_t caps_n, int32_t *pulses, size_t pulses_n, int32_t *fine,
                                            size_t fine_n, int32_t *priorities, size_t priorities_n, int32_t *shown, size_t shown_n);

/* ---- energies: GURTHAPEN_ENERGIES finite floats; c 1..2, lm 0..3, 0 <= start < end <= 21, intra 0 or 1. An energy that is not finite is
 *      GURTHAPEN_ENTRY. The bands start..end-1 of the first c channels are written. */

/* The coarse energies of a frame, in place of those of the frame before. */
uint32_t gurthapen_unquant_coarse_energy(int64_t *state, size_t state_n, const uint8_t *packet, size_t packet_n, float *energies,
                                         size_t energies_n, int32_t c, int32_t lm, int32_t start, int32_t end, int32_t intra);

/* The bits left over, one for each channel of a band; fine 0..8, priorities 0 or 1, left any number. */
uint32_t gurthapen_unquant_energy_finalise(int64_t *state, size_t state_n, const uint8_t *packet, size_t packet_n, float *energies,
                                           size_t energies_n, int32_t c, int32_t start, int32_t end, const int32_t *fine, size_t fine_n,
                                           const int32_t *priorities, size_t priorities_n, int32_t left);

/* ---- shapes: n 2..176, k 1..128, spread 0..3, b 1..16 dividing n, gain finite and at most 1 in size, or it is GURTHAPEN_ENTRY; shape has n
 *      places. A count of 2^32 or more is GURTHAPEN_COUNT, 2k < n with a spread that is not 0 GURTHAPEN_ROTATION */

/* The shape of a vector of k pulses, and which of its b parts hold a pulse. */
uint32_t gurthapen_alg_unquant(int64_t *state, size_t state_n, const uint8_t *packet, size_t packet_n, float *shape, size_t shape_n,
                               int32_t n, int32_t k, int32_t spread, int32_t b, float gain, uint32_t *mask, size_t mask_n);

/* ---- the stream record: GURTHAPEN_ENERGIES floats and the number of the frame that comes next, at most 4,294,967,295 */

/* The record before the first frame: energies of zero, number 0 comes next. */
uint32_t gurthapen_record_fresh(float *energies, size_t energies_n, uint64_t *next, size_t next_n);

/* A frame's number, 0..4,294,967,294, against the next one, at most 4,294,967,295: 0, GURTHAPEN_BELOW_NEXT or GURTHAPEN_ABOVE_NEXT. A number
 * outside its domain is GURTHAPEN_NUMBER, as it is to a frame. */
uint32_t gurthapen_record_order(uint64_t next, uint64_t number);

/* Frame `number`, 0..4,294,967,294, whose coarse energies the reader stands before: only the next number is applied, and goes up by one. Any
 * other number is GURTHAPEN_BELOW_NEXT or GURTHAPEN_ABOVE_NEXT, an energy of the record that is not finite GURTHAPEN_ENTRY. */
uint32_t gurthapen_record_frame(float *energies, size_t energies_n, uint64_t *next, size_t next_n, int64_t *state, size_t state_n,
                                const uint8_t *packet, size_t packet_n, uint64_t number, int32_t c, int32_t lm, int32_t start, int32_t end,
                                int32_t intra);

/* The record's line, without a line feed, to the front of buf, which has GURTHAPEN_LINE bytes or more, and the line's length. A next number
 * above 4,294,967,295 is GURTHAPEN_NUMBER, an energy that is not finite GURTHAPEN_ENTRY. */
uint32_t gurthapen_record_save(const float *energies, size_t energies_n, uint64_t next, uint8_t *buf, size_t buf_n, size_t *length,
                               size_t length_n);

/* The record of a saved line, without its line feed: an E line, as saved, or a Q line. A malformed line is GURTHAPEN_NUMBER, and so is,
 * by its length alone, one of more than GURTHAPEN_LINE bytes; an energy that is not finite is GURTHAPEN_ENTRY. */
uint32_t gurthapen_record_restore(const uint8_t *line, size_t line_n, float *energies, size_t energies_n, uint64_t *next, size_t next_n);

/* ---- the lister */

/* The lister's answer to a request line, without its line feed, to the front of out, which has GURTHAPEN_LISTED bytes or more, and the
 * answer's length. The number is the line's. A request that is refused is answered too, by an X line; the call itself is refused as
 * GURTHAPEN_LENGTH alone. */
uint32_t gurthapen_list(const uint8_t *line, size_t line_n, uint32_t number, uint8_t *out, size_t out_n, size_t *length, size_t length_n);

/* ---- the round trip: what is written and closed is read back */

/* The first of a symbol's GURTHAPEN_SYMBOL numbers. After it come
 *   GURTHAPEN_BIT      the bit, logp
 *   GURTHAPEN_TABLE    the symbol, ftb, the place of its first entry in tables, how many entries it has
 *   GURTHAPEN_UNIFORM  the number, ft
 *   GURTHAPEN_RAW      the bits, how many they are
 *   GURTHAPEN_LAPLACE  0, 1, 2, 3, 4, .. for the value 0, -1, 1, -2, 2, .., fs, decay
 * and the rest of the five, which is not looked at. */
enum gurthapen_kind { GURTHAPEN_BIT, GURTHAPEN_TABLE, GURTHAPEN_UNIFORM, GURTHAPEN_RAW, GURTHAPEN_LAPLACE };

/* What stands where in an outcome. */
enum gurthapen_outcome {
    GURTHAPEN_ENDED, /* enum gurthapen_end */
    GURTHAPEN_BY,    /* the call that refused (enum gurthapen_call), else 0 */
    GURTHAPEN_WHICH, /* of a symbol that was refused, its place in the list of symbols, from 0; else 0 */
    GURTHAPEN_WHY    /* the refusal (enum gurthapen_refusal), else 0 */
};

/* GURTHAPEN_DISAGREED is never answered: it is proved that a reader agrees wherever close reported no error. */
enum gurthapen_end { GURTHAPEN_AGREED, GURTHAPEN_NOT_CLOSED, GURTHAPEN_REFUSED, GURTHAPEN_DISAGREED };
enum gurthapen_call { GURTHAPEN_BY_NEW, GURTHAPEN_BY_SYMBOL, GURTHAPEN_BY_ALLOCATION, GURTHAPEN_BY_CLOSE };

/* Writes the symbols and an allocation with a new writer over a copy of the bytes, closes, reads all back and compares: each value, tell
 * after each symbol, the allocation's numbers and lists. How it ended goes into outcome: a call of the writer that is refused ends it, and so
 * does a close that sets the error mark. The call itself is refused, and outcome stays as it was: as GURTHAPEN_LENGTH where outcome has not
 * GURTHAPEN_OUTCOME numbers or symbols are not GURTHAPEN_SYMBOL numbers each; else as GURTHAPEN_NUMBER where a kind is above
 * GURTHAPEN_LAPLACE or a table has entries past the end of tables. The whole list of symbols is looked at before anything is written. */
uint32_t gurthapen_round_trip(const uint8_t *bytes, size_t bytes_n, const uint32_t *symbols, size_t symbols_n, const uint8_t *tables,
                              size_t tables_n, int32_t c, int32_t lm, int32_t start, int32_t end, int32_t trim, int32_t total,
                              int32_t intensity, int32_t dual, int32_t previous, int32_t bandwidth, const int32_t *offsets,
                              size_t offsets_n, const int32_t *caps, size_t caps_n, uint64_t *outcome, size_t outcome_n);

#ifdef __cplusplus
}
#endif

#endif

/* Lengths before entries: every list stands directly before a page that can be neither read nor written, and lists are lent with a
 * count that is higher than their length. Where a count is wrong the answer is GURTHAPEN_LENGTH, no list is read past its end, and all are as they were. */
#define _GNU_SOURCE
#include "try.h"

#include <setjmp.h>
#include <signal.h>
#include <stdlib.h>
#include <sys/mman.h>
#include <unistd.h>

enum { BYTES_N = 40, TABLE_N = 3, SHAPE_N = 16, PULSES_N = 4, LINE_N = 2600, MOST = 4096 };

enum list { STATE, BYTES, TABLE, VALUE, COUNTED, Y, OFFSETS, CAPS, PULSES, FINE, PRIORITIES, SHOWN, ENERGIES, SHAPE, NEXT, LENGTH, SAVED, OUT, LINE,
    OUTCOME, SYMBOLS, LISTS };

/* The size of an element, and how many there are. */
static const struct {
    const char *name;
    size_t size, count;
} kinds[LISTS] = {
    [STATE] = {"state", sizeof(int64_t), GURTHAPEN_STATE},
    [BYTES] = {"bytes", 1, BYTES_N},
    [TABLE] = {"table", 1, TABLE_N},
    [VALUE] = {"value", sizeof(uint32_t), 1},
    [COUNTED] = {"counted", sizeof(int32_t), 1},
    [Y] = {"y", sizeof(int32_t), GURTHAPEN_ROOM},
    [OFFSETS] = {"offsets", sizeof(int32_t), GURTHAPEN_BANDS},
    [CAPS] = {"caps", sizeof(int32_t), GURTHAPEN_BANDS},
    [PULSES] = {"pulses", sizeof(int32_t), GURTHAPEN_BANDS},
    [FINE] = {"fine", sizeof(int32_t), GURTHAPEN_BANDS},
    [PRIORITIES] = {"priorities", sizeof(int32_t), GURTHAPEN_BANDS},
    [SHOWN] = {"shown", sizeof(int32_t), GURTHAPEN_SHOWN},
    [ENERGIES] = {"energies", sizeof(float), GURTHAPEN_ENERGIES},
    [SHAPE] = {"shape", sizeof(float), SHAPE_N},
    [NEXT] = {"next", sizeof(uint64_t), 1},
    [LENGTH] = {"length", sizeof(size_t), 1},
    [SAVED] = {"saved", 1, GURTHAPEN_LINE},
    [OUT] = {"out", 1, GURTHAPEN_LISTED},
    [LINE] = {"line", 1, LINE_N},
    [OUTCOME] = {"outcome", sizeof(uint64_t), GURTHAPEN_OUTCOME},
    [SYMBOLS] = {"symbols", sizeof(uint32_t), GURTHAPEN_SYMBOL},
};

/* Where each list stands, and the count that is given with it. */
static void *at[LISTS];
static size_t given[LISTS];

/* What each held before the call. */
static unsigned char before[LISTS][MOST];

static void place_all(void) {
    size_t i, page = (size_t)sysconf(_SC_PAGESIZE), room = (MOST + page - 1) / page * page;
    for (i = 0; i < LISTS; i++) {
        unsigned char *whole = mmap(NULL, room + page, PROT_READ | PROT_WRITE, MAP_PRIVATE | MAP_ANONYMOUS, -1, 0);
        if (whole == MAP_FAILED || mprotect(whole + room, page, PROT_NONE) != 0) {
            perror("try_guard: mmap");
            exit(2);
        }
        at[i] = whole + room - kinds[i].size * kinds[i].count;
    }
}

/* Contents that every call below accepts. */
static void fill(int writes) {
    int32_t *caps = at[CAPS], *y = at[Y];
    uint8_t *table = at[TABLE];
    size_t i;
    for (i = 0; i < LISTS; i++) {
        memset(at[i], 0, kinds[i].size * kinds[i].count);
        given[i] = kinds[i].count;
    }
    for (i = 0; i < GURTHAPEN_BANDS; i++)
        caps[i] = 1000;
    table[0] = 2, table[1] = 1;
    y[0] = PULSES_N;
    *(uint64_t *)at[NEXT] = 5;
    memset(at[LINE], '0', LINE_N);
    memcpy(at[LINE], "1\t0\t0\t1\t5\t71\t", 13);
    IS(writes ? gurthapen_enc_new(at[STATE], GURTHAPEN_STATE, at[BYTES], BYTES_N) : gurthapen_dec_new(at[STATE], GURTHAPEN_STATE, at[BYTES], BYTES_N), 0);
}

/* A list, lent. */
#define L(type, list) (type *)at[list], given[list]
#define CALL(name, ...)                                                                                    \
    static uint32_t name(void) { return gurthapen_##name(__VA_ARGS__); }

CALL(dec_new, L(int64_t, STATE), L(uint8_t, BYTES))
CALL(enc_new, L(int64_t, STATE), L(uint8_t, BYTES))
CALL(dec_bit_logp, L(int64_t, STATE), L(uint8_t, BYTES), 3, L(uint32_t, VALUE))
CALL(dec_icdf, L(int64_t, STATE), L(uint8_t, BYTES), L(uint8_t, TABLE), 2, L(uint32_t, VALUE))
CALL(dec_uint, L(int64_t, STATE), L(uint8_t, BYTES), 1000, L(uint32_t, VALUE))
CALL(dec_bits, L(int64_t, STATE), L(uint8_t, BYTES), 5, L(uint32_t, VALUE))
CALL(dec_tell, L(int64_t, STATE), L(uint32_t, VALUE))
CALL(dec_tell_frac, L(int64_t, STATE), L(uint32_t, VALUE))
CALL(enc_bit_logp, L(int64_t, STATE), L(uint8_t, BYTES), 1, 3)
CALL(enc_icdf, L(int64_t, STATE), L(uint8_t, BYTES), 1, L(uint8_t, TABLE), 2)
CALL(enc_uint, L(int64_t, STATE), L(uint8_t, BYTES), 999, 1000)
CALL(enc_bits, L(int64_t, STATE), L(uint8_t, BYTES), 31, 5)
CALL(enc_close, L(int64_t, STATE), L(uint8_t, BYTES))
CALL(enc_tell, L(int64_t, STATE), L(uint32_t, VALUE))
CALL(enc_tell_frac, L(int64_t, STATE), L(uint32_t, VALUE))
CALL(laplace_decode, L(int64_t, STATE), L(uint8_t, BYTES), 72 << 7, 127 << 6, L(int32_t, COUNTED))
CALL(laplace_encode, L(int64_t, STATE), L(uint8_t, BYTES), -2, 72 << 7, 127 << 6, L(int32_t, COUNTED))
CALL(decode_pulses, L(int64_t, STATE), L(uint8_t, BYTES), L(int32_t, Y), SHAPE_N, PULSES_N, L(uint32_t, VALUE))
CALL(encode_pulses, L(int64_t, STATE), L(uint8_t, BYTES), L(int32_t, Y), SHAPE_N, PULSES_N)
CALL(get_pulses, 23, L(uint32_t, VALUE))
CALL(bits2pulses, 10, 1, 100, L(uint32_t, VALUE))
CALL(pulses2bits, 10, 1, 2, L(uint32_t, VALUE))
CALL(compute_allocation_read, L(int64_t, STATE), L(uint8_t, BYTES), 2, 1, 2, 19, 5, 2000, L(int32_t, OFFSETS), L(int32_t, CAPS), L(int32_t, PULSES),
     L(int32_t, FINE), L(int32_t, PRIORITIES), L(int32_t, SHOWN))
CALL(compute_allocation_write, L(int64_t, STATE), L(uint8_t, BYTES), 2, 1, 2, 19, 5, 2000, 5, 1, 0, 0, L(int32_t, OFFSETS), L(int32_t, CAPS),
     L(int32_t, PULSES), L(int32_t, FINE), L(int32_t, PRIORITIES), L(int32_t, SHOWN))
CALL(unquant_coarse_energy, L(int64_t, STATE), L(uint8_t, BYTES), L(float, ENERGIES), 2, 1, 2, 19, 1)
CALL(unquant_energy_finalise, L(int64_t, STATE), L(uint8_t, BYTES), L(float, ENERGIES), 2, 2, 19, L(int32_t, FINE), L(int32_t, PRIORITIES), 3)
CALL(alg_unquant, L(int64_t, STATE), L(uint8_t, BYTES), L(float, SHAPE), SHAPE_N, PULSES_N, 0, 4, 0.5f, L(uint32_t, VALUE))
CALL(record_fresh, L(float, ENERGIES), L(uint64_t, NEXT))
CALL(record_frame, L(float, ENERGIES), L(uint64_t, NEXT), L(int64_t, STATE), L(uint8_t, BYTES), 5, 2, 1, 2, 19, 1)
CALL(record_save, L(float, ENERGIES), 5, L(uint8_t, SAVED), L(size_t, LENGTH))
CALL(record_restore, L(uint8_t, LINE), L(float, ENERGIES), L(uint64_t, NEXT))
CALL(list, L(uint8_t, LINE), 7, L(uint8_t, OUT), L(size_t, LENGTH))
CALL(round_trip, L(uint8_t, BYTES), L(uint32_t, SYMBOLS), L(uint8_t, TABLE), 2, 1, 2, 19, 5, 2000, 5, 1, 0, 0, L(int32_t, OFFSETS), L(int32_t, CAPS),
     L(uint64_t, OUTCOME))

/* A call: its lists that have one length, so that one more is GURTHAPEN_LENGTH, and those of which more may be given (a table, a line, room for a line). */
#define TO(list) (1u << (list))
#define BANDS (TO(OFFSETS) | TO(CAPS) | TO(PULSES) | TO(FINE) | TO(PRIORITIES) | TO(SHOWN))
#define CODER (TO(STATE) | TO(BYTES))
static const struct {
    const char *name;
    int writes;
    uint32_t (*call)(void);
    unsigned sized, others;
} calls[] = {
#define READS(name, sized, others) {#name, 0, name, sized, others}
#define WRITES(name, sized, others) {#name, 1, name, sized, others}
    READS(dec_new, TO(STATE), TO(BYTES)),
    WRITES(enc_new, TO(STATE), TO(BYTES)),
    READS(dec_bit_logp, CODER | TO(VALUE), 0),
    READS(dec_icdf, CODER | TO(VALUE), TO(TABLE)),
    READS(dec_uint, CODER | TO(VALUE), 0),
    READS(dec_bits, CODER | TO(VALUE), 0),
    READS(dec_tell, TO(STATE) | TO(VALUE), 0),
    READS(dec_tell_frac, TO(STATE) | TO(VALUE), 0),
    WRITES(enc_bit_logp, CODER, 0),
    WRITES(enc_icdf, CODER, TO(TABLE)),
    WRITES(enc_uint, CODER, 0),
    WRITES(enc_bits, CODER, 0),
    WRITES(enc_close, CODER, 0),
    WRITES(enc_tell, TO(STATE) | TO(VALUE), 0),
    WRITES(enc_tell_frac, TO(STATE) | TO(VALUE), 0),
    READS(laplace_decode, CODER | TO(COUNTED), 0),
    WRITES(laplace_encode, CODER | TO(COUNTED), 0),
    READS(decode_pulses, CODER | TO(Y) | TO(VALUE), 0),
    WRITES(encode_pulses, CODER | TO(Y), 0),
    READS(get_pulses, TO(VALUE), 0),
    READS(bits2pulses, TO(VALUE), 0),
    READS(pulses2bits, TO(VALUE), 0),
    READS(compute_allocation_read, CODER | BANDS, 0),
    WRITES(compute_allocation_write, CODER | BANDS, 0),
    READS(unquant_coarse_energy, CODER | TO(ENERGIES), 0),
    READS(unquant_energy_finalise, CODER | TO(ENERGIES) | TO(FINE) | TO(PRIORITIES), 0),
    READS(alg_unquant, CODER | TO(SHAPE) | TO(VALUE), 0),
    READS(record_fresh, TO(ENERGIES) | TO(NEXT), 0),
    READS(record_frame, CODER | TO(ENERGIES) | TO(NEXT), 0),
    READS(record_save, TO(ENERGIES) | TO(LENGTH), TO(SAVED)),
    READS(record_restore, TO(ENERGIES) | TO(NEXT), TO(LINE)),
    READS(list, TO(LENGTH), TO(LINE) | TO(OUT)),
    READS(round_trip, TO(OUTCOME), TO(BYTES) | TO(TABLE) | TO(OFFSETS) | TO(CAPS)),
};

static sigjmp_buf back;

static void trapped(int signal) {
    (void)signal;
    siglongjmp(back, 1);
}

enum { TRAP = 999 };

/* What the call answers, or TRAP. */
static uint32_t called(uint32_t (*call)(void)) {
    return sigsetjmp(back, 1) == 0 ? call() : TRAP;
}

/* The answer is this one, without a trap; a refusal leaves every list. */
static void answers(const char *name, uint32_t (*call)(void), uint32_t want) {
    size_t i;
    uint32_t got;
    int changed = 0;
    for (i = 0; i < LISTS; i++)
        memcpy(before[i], at[i], kinds[i].size * kinds[i].count);
    got = called(call);
    for (i = 0; i < LISTS; i++)
        changed |= memcmp(before[i], at[i], kinds[i].size * kinds[i].count) != 0;
    tried++;
    if (got != want || (got != 0 && changed)) {
        failed++;
        printf("%s: gurthapen_%s %s %u, not %u, or changed something; given", __FILE__, name, got == TRAP ? "was trapped," : "answered", (unsigned)got,
               (unsigned)want);
        for (i = 0; i < LISTS; i++)
            if (given[i] != kinds[i].count)
                printf(" %s %zu", kinds[i].name, given[i]);
        printf("\n");
    }
}

void try_guard(void) {
    static const size_t more[] = {1, 2, 100000000};
    struct sigaction trap, old_segv, old_bus;
    size_t i, j, k;
    unsigned lists;

    place_all();
    memset(&trap, 0, sizeof trap);
    trap.sa_handler = trapped;
    sigaction(SIGSEGV, &trap, &old_segv);
    sigaction(SIGBUS, &trap, &old_bus);
    for (i = 0; i < COUNT(calls); i++) {
        unsigned all = calls[i].sized | calls[i].others;
        fill(calls[i].writes);
        if (calls[i].call != list && calls[i].call != record_restore)
            answers(calls[i].name, calls[i].call, 0);
        /* every choice of lists of which one at least has one length only */
        for (lists = all; lists != 0; lists = (lists - 1) & all)
            if ((lists & calls[i].sized) != 0)
                for (k = 0; k < COUNT(more); k++) {
                    fill(calls[i].writes);
                    for (j = 0; j < LISTS; j++)
                        if (lists >> j & 1)
                            given[j] += more[k];
                    answers(calls[i].name, calls[i].call, GURTHAPEN_LENGTH);
                }
    }

    /* a table or a vector beside bytes of which fewer are given */
    fill(0);
    given[BYTES] -= 1, given[TABLE] += 1;
    answers("dec_icdf", dec_icdf, GURTHAPEN_LENGTH);
    fill(1);
    given[BYTES] -= 1, given[TABLE] += 1;
    answers("enc_icdf", enc_icdf, GURTHAPEN_LENGTH);

    /* symbols with a count of one more, alone and with every other list of the round trip: they are no list of symbols, and not read */
    fill(0);
    given[SYMBOLS] += 1;
    answers("round_trip", round_trip, GURTHAPEN_LENGTH);
    fill(0);
    for (j = 0; j < LISTS; j++)
        given[j] += 100000001;
    answers("round_trip", round_trip, GURTHAPEN_LENGTH);
    given[OUTCOME] = GURTHAPEN_OUTCOME;
    answers("round_trip", round_trip, GURTHAPEN_LENGTH);

    /* a request line of 2,600 bytes, with a count of one more: it is malformed, and not read */
    fill(0);
    given[LINE] += 1;
    answers("list", list, 0);
    IS(*(size_t *)at[LENGTH], 6);
    IS(memcmp(at[OUT], "X\t7\t1\n", 6), 0);
    sigaction(SIGSEGV, &old_segv, NULL);
    sigaction(SIGBUS, &old_bus, NULL);
}

/* Faults, to see that the driver finds them: gurthapen_dec_bits with one of them, in one call of some hundred, or gurthapen_round_trip. Linked with
 * --wrap of both; FAULT says which. */
#include "calls.h"

#include <stdlib.h>

uint32_t __real_gurthapen_dec_bits(int64_t *state, size_t state_n, const uint8_t *packet, size_t packet_n, uint32_t n, uint32_t *value, size_t value_n);
uint32_t __wrap_gurthapen_dec_bits(int64_t *state, size_t state_n, const uint8_t *packet, size_t packet_n, uint32_t n, uint32_t *value, size_t value_n);

static volatile uint8_t sink;

uint32_t __wrap_gurthapen_dec_bits(int64_t *state, size_t state_n, const uint8_t *packet, size_t packet_n, uint32_t n, uint32_t *value, size_t value_n) {
    static unsigned count;
    uint32_t answer = __real_gurthapen_dec_bits(state, state_n, packet, packet_n, n, value, value_n);
    /* where a length is wrong most lists cannot be read at all: one fault is for that, and the others are for the rest */
    if (++count % 300 != 0 || (answer == 2) != (FAULT == 15))
        return answer;
    switch (FAULT) {
    case 1: /* reads past the end: often enough a page that cannot be read */
        sink = packet[packet_n];
        break;
    case 2: /* reads before the beginning */
        sink = packet[-1];
        break;
    case 3: /* writes past the end */
        value[value_n] = 0;
        break;
    case 4: /* writes before the beginning */
        value[-1] = 0;
        break;
    case 5: /* writes what already stands there to a list that is lent for reading */
        if (packet_n > 0)
            *(volatile uint8_t *)(uintptr_t)packet = packet[0];
        break;
    case 6: /* changes a list although it is refused */
        if (answer != 0 && state_n > 0)
            state[state_n - 1]++;
        break;
    case 7: /* refuses with a number that is none */
        return 99;
    case 8: /* refuses with another number */
        if (answer == 1)
            return 2;
        break;
    case 9: /* refuses what it should answer, after it has changed the state */
        return 4;
    case 10: /* does not end */
        for (;;)
            sink++;
    case 11: /* leaves a state that breaks its rule */
        if (answer == 0)
            state[GURTHAPEN_RNG] = 0;
        break;
    case 12: /* answers a number that is none of the symbol's */
        if (answer == 0)
            value[0] = 1u << n;
        break;
    case 13:
    case 14: /* faults of the other call */
        break;
    case 15: /* reads an entry although a length is wrong */
        if (packet_n > 0)
            sink = packet[0];
        break;
    default:
        abort();
    }
    return answer;
}

#define TRIP                                                                                                                                \
    const uint8_t *bytes, size_t bytes_n, const uint32_t *symbols, size_t symbols_n, const uint8_t *tables, size_t tables_n, int32_t c, int32_t lm,  \
        int32_t start, int32_t end, int32_t trim, int32_t total, int32_t intensity, int32_t dual, int32_t previous, int32_t bandwidth,       \
        const int32_t *offsets, size_t offsets_n, const int32_t *caps, size_t caps_n, uint64_t *outcome, size_t outcome_n
uint32_t __real_gurthapen_round_trip(TRIP);
uint32_t __wrap_gurthapen_round_trip(TRIP);

uint32_t __wrap_gurthapen_round_trip(TRIP) {
    uint32_t answer = __real_gurthapen_round_trip(bytes, bytes_n, symbols, symbols_n, tables, tables_n, c, lm, start, end, trim, total, intensity,
                                                  dual, previous, bandwidth, offsets, offsets_n, caps, caps_n, outcome, outcome_n);
    if (FAULT == 13 && answer == 0 && outcome[GURTHAPEN_ENDED] == GURTHAPEN_NOT_CLOSED) /* tells what was not closed as agreed */
        outcome[GURTHAPEN_ENDED] = GURTHAPEN_AGREED;
    if (FAULT == 14 && answer == 0 && outcome[GURTHAPEN_WHICH] > 8) /* tells another place */
        outcome[GURTHAPEN_WHICH]--;
    return answer;
}

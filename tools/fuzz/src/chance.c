#include "chance.h"

static uint64_t state;
static int calm;

void begin_chance(uint64_t seed) {
    state = seed * 0x9e3779b97f4a7c15u + 1;
    if (state == 0)
        state = 1;
}

uint64_t any(void) {
    /* xorshift64* */
    state ^= state >> 12;
    state ^= state << 25;
    state ^= state >> 27;
    return state * 0x2545f4914f6cdd1du;
}

uint64_t below(uint64_t n) {
    return (any() >> 11) % n;
}

void new_mood(void) {
    calm = !one_in(4);
}

int spoilt(void) {
    return !calm && one_in(6);
}

int32_t number(int32_t lo, int32_t hi) {
    if (spoilt()) {
        const int64_t far[] = {(int64_t)lo - 1, (int64_t)hi + 1, INT32_MIN, INT32_MAX, 0, -1, (int64_t)hi * 2, (int32_t)any()};
        return (int32_t)ONE_OF(far);
    }
    if (one_in(8))
        return one_in(2) ? lo : hi;
    return (int32_t)(lo + (int64_t)below((uint64_t)((int64_t)hi - lo) + 1));
}

size_t length_of(size_t right) {
    if (spoilt()) {
        const size_t wrong[] = {0, right == 0 ? 1 : right - 1, right + 1, 2 * right + 1, below(300), 300 + below(1200)};
        return ONE_OF(wrong);
    }
    return right;
}

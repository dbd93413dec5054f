#include "rule.h"

#include <math.h>
#include <stdio.h>
#include <string.h>

/* A field of a line. */
struct field {
    const uint8_t *at;
    size_t n;
};

/* The fields of a line, separated by tabs: how many there are, and the first `most` of them. */
static size_t fields_of(const uint8_t *line, size_t n, struct field *fields, size_t most) {
    size_t i, from = 0, count = 0;
    for (i = 0; i <= n; i++)
        if (i == n || line[i] == '\t') {
            if (count < most)
                fields[count] = (struct field){line + from, i - from};
            count++;
            from = i + 1;
        }
    return count;
}

/* A decimal number of lo..hi without plus, needless zeros or a minus before 0. */
static int decimal(struct field f, int64_t lo, int64_t hi, int64_t *value) {
    size_t i;
    int below_zero = f.n > 0 && f.at[0] == '-';
    int64_t v = 0;
    if (below_zero)
        f.at++, f.n--;
    if (f.n == 0 || f.n > 15 || (f.n > 1 && f.at[0] == '0') || (below_zero && f.at[0] == '0'))
        return 0;
    for (i = 0; i < f.n; i++) {
        if (!within(f.at[i], '0', '9'))
            return 0;
        v = 10 * v + (f.at[i] - '0');
    }
    *value = below_zero ? -v : v;
    return within(*value, lo, hi);
}

static int hex_digit(uint8_t b) {
    return within(b, '0', '9') ? b - '0' : within(b, 'a', 'f') ? b - 'a' + 10 : -1;
}

static int word(struct field f, uint32_t *value) {
    size_t i;
    *value = 0;
    for (i = 0; i < f.n; i++) {
        if (hex_digit(f.at[i]) < 0)
            return 0;
        *value = *value << 4 | (uint32_t)hex_digit(f.at[i]);
    }
    return f.n == 8;
}

uint32_t saved_line(const uint8_t *line, size_t n, uint64_t *next, float *energies) {
    struct field fields[44];
    int64_t v;
    uint32_t bits;
    int i;
    if (fields_of(line, n, fields, 44) != 44 || fields[0].n != 1 || (line[0] != 'E' && line[0] != 'Q') || !decimal(fields[1], 0, 4294967295, &v))
        return 1;
    *next = (uint64_t)v;
    for (i = 0; i < 42; i++)
        if (line[0] == 'E') {
            if (!word(fields[i + 2], &bits))
                return 1;
            memcpy(&energies[i], &bits, sizeof bits);
        } else {
            if (!decimal(fields[i + 2], -32768, 32767, &v))
                return 1;
            energies[i] = (float)v / 256.0f;
        }
    return all_finite(energies, 42) ? 0 : 3;
}

size_t in_hex(uint64_t value, size_t digits, char *text) {
    size_t i;
    for (i = digits; i-- > 0; value >>= 4)
        text[i] = "0123456789abcdef"[value & 15];
    return digits;
}

size_t line_of(const float *energies, uint64_t next, char *line) {
    size_t n = (size_t)sprintf(line, "E\t%llu", (unsigned long long)next);
    uint32_t bits;
    int i;
    for (i = 0; i < 42; i++) {
        memcpy(&bits, &energies[i], sizeof bits);
        line[n++] = '\t';
        n += in_hex(bits, 8, line + n);
    }
    return n;
}

int request_line(const uint8_t *line, size_t n, struct request *asks) {
    struct field fields[7];
    int64_t v[6] = {0, 0, 0, 0, 5, 0};
    size_t i;
    if (n > 2600 || fields_of(line, n, fields, 7) != 7 || fields[6].n > 2 * 1275 || fields[6].n % 2 != 0)
        return 0;
    for (i = 0; i < fields[6].n; i += 2) {
        int high = hex_digit(fields[6].at[i]), low = hex_digit(fields[6].at[i + 1]);
        if (high < 0 || low < 0)
            return 0;
        asks->packet[i / 2] = (uint8_t)(high << 4 | low);
    }
    asks->packet_n = fields[6].n / 2;
    v[5] = 64 * (int64_t)asks->packet_n;
    for (i = 0; i < 6; i++)
        if (!(i >= 4 && fields[i].n == 0) && !decimal(fields[i], INT32_MIN, INT32_MAX, &v[i]))
            return 0;
    asks->c = (int32_t)v[0], asks->lm = (int32_t)v[1], asks->start = (int32_t)v[2], asks->end = (int32_t)v[3];
    asks->trim = (int32_t)v[4], asks->total = (int32_t)v[5];
    return 1;
}

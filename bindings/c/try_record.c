/* The stream record, its saved lines, and the lister. */
#include "try.h"

/* A packet of bytes that are not all alike. */
static void some_bytes(uint8_t *bytes, size_t n, unsigned seed) {
    size_t i;
    for (i = 0; i < n; i++) {
        seed = seed * 1103515245 + 12345;
        bytes[i] = (uint8_t)(seed >> 16);
    }
}

/* Frame `number` of the packet, from its first bit on. */
static uint32_t frame(float *energies, uint64_t *next, uint64_t number, const uint8_t *packet, size_t packet_n, int32_t c) {
    int64_t d[GURTHAPEN_STATE];
    IS(gurthapen_dec_new(LIST(d), packet, packet_n), 0);
    return gurthapen_record_frame(energies, GURTHAPEN_ENERGIES, next, 1, LIST(d), packet, packet_n, number, c, 3, 0, 21, number % 2 == 0);
}

/* Only the next number is applied, once; any other is refused, and the record stays as it is. */
static void numbers(void) {
    float energies[GURTHAPEN_ENERGIES], kept[GURTHAPEN_ENERGIES], alone[GURTHAPEN_ENERGIES];
    uint64_t next = 99, number, other;
    uint8_t packet[60];
    int64_t d[GURTHAPEN_STATE];
    size_t i;

    memset(energies, 0xff, sizeof energies);
    IS(gurthapen_record_fresh(LIST(energies), &next, 1), 0);
    IS(next, 0);
    for (i = 0; i < GURTHAPEN_ENERGIES; i++)
        IS(bits_of(energies[i]), 0);

    for (number = 0; number < 20; number++) {
        int32_t c = number % 3 == 2 ? 1 : 2;
        some_bytes(LIST(packet), (unsigned)number);
        memcpy(kept, energies, sizeof kept);
        memcpy(alone, energies, sizeof alone);
        for (other = 0; other < number; other++) {
            IS(gurthapen_record_order(next, other), GURTHAPEN_BELOW_NEXT);
            IS(frame(energies, &next, other, LIST(packet), c), GURTHAPEN_BELOW_NEXT);
        }
        IS(gurthapen_record_order(next, number + 1), GURTHAPEN_ABOVE_NEXT);
        IS(frame(energies, &next, number + 1, LIST(packet), c), GURTHAPEN_ABOVE_NEXT);
        IS(frame(energies, &next, 4294967294, LIST(packet), c), GURTHAPEN_ABOVE_NEXT);
        IS(frame(energies, &next, 4294967295, LIST(packet), c), GURTHAPEN_NUMBER);
        IS(frame(energies, &next, UINT64_MAX, LIST(packet), c), GURTHAPEN_NUMBER);
        SAME(energies, kept);
        IS(next, number);

        /* the energies are decoded once, and the next number is one more */
        IS(gurthapen_record_order(next, number), 0);
        IS(frame(energies, &next, number, LIST(packet), c), 0);
        IS(next, number + 1);
        IS(gurthapen_dec_new(LIST(d), LIST(packet)), 0);
        IS(gurthapen_unquant_coarse_energy(LIST(d), LIST(packet), LIST(alone), c, 3, 0, 21, number % 2 == 0), 0);
        SAME(energies, alone);
        if (c == 1)
            IS(memcmp(energies + 21, kept + 21, 21 * sizeof(float)), 0);

        /* once more is refused */
        memcpy(kept, energies, sizeof kept);
        IS(frame(energies, &next, number, LIST(packet), c), GURTHAPEN_BELOW_NEXT);
        SAME(energies, kept);
        IS(next, number + 1);
    }

    /* the last number of all, and a record past it */
    next = 4294967294;
    IS(frame(energies, &next, 4294967294, LIST(packet), 1), 0);
    IS(next, 4294967295);
    memcpy(kept, energies, sizeof kept);
    IS(frame(energies, &next, 4294967294, LIST(packet), 1), GURTHAPEN_BELOW_NEXT);
    IS(frame(energies, &next, 4294967295, LIST(packet), 1), GURTHAPEN_NUMBER);
    next = 4294967296;
    IS(frame(energies, &next, 4294967294, LIST(packet), 1), GURTHAPEN_NUMBER);
    next = UINT64_MAX;
    IS(frame(energies, &next, 0, LIST(packet), 1), GURTHAPEN_NUMBER);
    IS(next == UINT64_MAX, 1);
    SAME(energies, kept);

    /* the order of two numbers at the ends of their domains */
    IS(gurthapen_record_order(0, 0), 0);
    IS(gurthapen_record_order(1, 0), GURTHAPEN_BELOW_NEXT);
    IS(gurthapen_record_order(0, 1), GURTHAPEN_ABOVE_NEXT);
    IS(gurthapen_record_order(4294967294, 4294967294), 0);
    IS(gurthapen_record_order(4294967295, 4294967294), GURTHAPEN_BELOW_NEXT);
    IS(gurthapen_record_order(0, 4294967294), GURTHAPEN_ABOVE_NEXT);

    /* and outside them, where the order does not count */
    IS(gurthapen_record_order(4294967295, 4294967295), GURTHAPEN_NUMBER);
    IS(gurthapen_record_order(0, 4294967295), GURTHAPEN_NUMBER);
    IS(gurthapen_record_order(4294967296, 4294967294), GURTHAPEN_NUMBER);
    IS(gurthapen_record_order(4294967296, 4294967295), GURTHAPEN_NUMBER);
    IS(gurthapen_record_order((uint64_t)1 << 40, 5), GURTHAPEN_NUMBER);
    IS(gurthapen_record_order(UINT64_MAX, UINT64_MAX), GURTHAPEN_NUMBER);
    IS(gurthapen_record_order(UINT64_MAX, 0), GURTHAPEN_NUMBER);
    IS(gurthapen_record_order(0, UINT64_MAX), GURTHAPEN_NUMBER);
}

/* A record goes into a line and comes back bit for bit, and then answers as the saved one did. */
static void saved(void) {
    static const uint32_t known[] = {0, 0x80000000, 1, 0x80000001, 0x007fffff, 0x00800000, 0x3f800000, 0xbf800000, 0x7f7fffff, 0xff7fffff, 0x41100000};
    static const uint64_t nexts[] = {0, 1, 9, 10, 4294967294, 4294967295};
    float energies[GURTHAPEN_ENERGIES], back[GURTHAPEN_ENERGIES], one[GURTHAPEN_ENERGIES];
    uint64_t next, next_one;
    uint8_t line[GURTHAPEN_LINE + 10], packet[60];
    size_t i, k, length;
    char start[16];

    some_bytes(LIST(packet), 5);
    for (k = 0; k < COUNT(nexts); k++) {
        for (i = 0; i < GURTHAPEN_ENERGIES; i++)
            energies[i] = float_of(known[(i + k) % COUNT(known)]);
        memset(line, '#', sizeof line);
        length = 0;
        IS(gurthapen_record_save(LIST(energies), nexts[k], LIST(line), &length, 1), 0);
        snprintf(start, sizeof start, "E\t%llu\t", (unsigned long long)nexts[k]);
        IS(length, strlen(start) + 42 * 9 - 1);
        IS(memcmp(line, start, strlen(start)), 0);
        for (i = 0; i < GURTHAPEN_ENERGIES; i++) {
            char field[10];
            snprintf(field, sizeof field, "%08lx", (unsigned long)bits_of(energies[i]));
            IS(memcmp(line + strlen(start) + 9 * i, field, 8), 0);
            if (i > 0)
                IS(line[strlen(start) + 9 * i - 1], '\t');
        }
        for (i = length; i < sizeof line; i++)
            IS(line[i], '#');

        memset(back, 0xff, sizeof back);
        next = 77;
        IS(gurthapen_record_restore(line, length, LIST(back), &next, 1), 0);
        SAME(back, energies);
        IS(next, nexts[k]);

        memcpy(one, energies, sizeof one);
        next_one = nexts[k];
        IS(frame(one, &next_one, nexts[k], LIST(packet), 2), nexts[k] == 4294967295 ? GURTHAPEN_NUMBER : 0);
        IS(frame(back, &next, nexts[k], LIST(packet), 2), nexts[k] == 4294967295 ? GURTHAPEN_NUMBER : 0);
        SAME(back, one);
        IS(next, next_one);

        /* a number that was applied after the save is accepted once more */
        IS(gurthapen_record_restore(line, length, LIST(back), &next, 1), 0);
        IS(frame(back, &next, nexts[k], LIST(packet), 2), nexts[k] == 4294967295 ? GURTHAPEN_NUMBER : 0);
        SAME(back, one);

        /* another length by one byte is another line */
        memcpy(back, energies, sizeof back);
        IS(gurthapen_record_restore(line, length - 1, LIST(back), &next, 1), GURTHAPEN_NUMBER);
        IS(gurthapen_record_restore(line, length + 1, LIST(back), &next, 1), GURTHAPEN_NUMBER);
        IS(gurthapen_record_restore(line, 0, LIST(back), &next, 1), GURTHAPEN_NUMBER);
        SAME(back, energies);
    }
}

/* A line of 44 fields: the letter, the next number, one field, and 41 others. */
static size_t line_of(char *line, const char *letter, const char *next, const char *field, const char *others) {
    size_t i, n = (size_t)sprintf(line, "%s\t%s\t%s", letter, next, field);
    for (i = 1; i < GURTHAPEN_ENERGIES; i++)
        n += (size_t)sprintf(line + n, "\t%s", others);
    return n;
}

/* Lines of both kinds, good ones and others. */
static void lines(void) {
    static const struct {
        const char *letter, *next, *field, *others;
        uint32_t answer;
        uint64_t number;
        uint32_t bits;
    } known[] = {
        {"E", "0", "3f800000", "00000000", 0, 0, 0x3f800000},
        {"E", "4294967295", "80000000", "00000000", 0, 4294967295, 0x80000000},
        {"E", "0", "7f800000", "00000000", GURTHAPEN_ENTRY, 0, 0},
        {"E", "0", "00000000", "ffc00000", GURTHAPEN_ENTRY, 0, 0},
        {"E", "0", "7f800000", "0000000G", GURTHAPEN_NUMBER, 0, 0}, /* malformed comes first */
        {"E", "0", "3F800000", "00000000", GURTHAPEN_NUMBER, 0, 0},
        {"E", "0", "3f80000", "00000000", GURTHAPEN_NUMBER, 0, 0},
        {"E", "0", "3f8000000", "00000000", GURTHAPEN_NUMBER, 0, 0},
        {"E", "0", "", "00000000", GURTHAPEN_NUMBER, 0, 0},
        {"E", "4294967296", "00000000", "00000000", GURTHAPEN_NUMBER, 0, 0},
        {"E", "99999999999999999999", "00000000", "00000000", GURTHAPEN_NUMBER, 0, 0},
        {"E", "00", "00000000", "00000000", GURTHAPEN_NUMBER, 0, 0},
        {"E", "01", "00000000", "00000000", GURTHAPEN_NUMBER, 0, 0},
        {"E", "+1", "00000000", "00000000", GURTHAPEN_NUMBER, 0, 0},
        {"E", "-0", "00000000", "00000000", GURTHAPEN_NUMBER, 0, 0},
        {"E", "-1", "00000000", "00000000", GURTHAPEN_NUMBER, 0, 0},
        {"E", " 1", "00000000", "00000000", GURTHAPEN_NUMBER, 0, 0},
        {"E", "", "00000000", "00000000", GURTHAPEN_NUMBER, 0, 0},
        {"F", "0", "00000000", "00000000", GURTHAPEN_NUMBER, 0, 0},
        {"e", "0", "00000000", "00000000", GURTHAPEN_NUMBER, 0, 0},
        {"EE", "0", "00000000", "00000000", GURTHAPEN_NUMBER, 0, 0},
        {"", "0", "00000000", "00000000", GURTHAPEN_NUMBER, 0, 0},
        {"Q", "7", "256", "0", 0, 7, 0x3f800000},
        {"Q", "7", "-256", "0", 0, 7, 0xbf800000},
        {"Q", "7", "1", "0", 0, 7, 0x3b800000},
        {"Q", "7", "32767", "0", 0, 7, 0x42fffe00},
        {"Q", "7", "-32768", "0", 0, 7, 0xc3000000},
        {"Q", "7", "32768", "0", GURTHAPEN_NUMBER, 0, 0},
        {"Q", "7", "-32769", "0", GURTHAPEN_NUMBER, 0, 0},
        {"Q", "7", "0", "-0", GURTHAPEN_NUMBER, 0, 0},
        {"Q", "7", "0", "00", GURTHAPEN_NUMBER, 0, 0},
        {"Q", "7", "0", "3f800000", GURTHAPEN_NUMBER, 0, 0},
        {"Q", "7", "99999999999999999999", "0", GURTHAPEN_NUMBER, 0, 0},
    };
    char line[1000];
    float energies[GURTHAPEN_ENERGIES];
    uint64_t next;
    size_t i, j, n;

    for (i = 0; i < COUNT(known); i++) {
        n = line_of(line, known[i].letter, known[i].next, known[i].field, known[i].others);
        for (j = 0; j < GURTHAPEN_ENERGIES; j++)
            energies[j] = 5.5f;
        next = 77;
        IS(gurthapen_record_restore((const uint8_t *)line, n, LIST(energies), &next, 1), known[i].answer);
        IS(next, known[i].answer == 0 ? known[i].number : 77);
        IS(bits_of(energies[0]), known[i].answer == 0 ? known[i].bits : bits_of(5.5f));
        for (j = 1; j < GURTHAPEN_ENERGIES; j++)
            IS(bits_of(energies[j]), known[i].answer == 0 ? 0 : bits_of(5.5f));
    }
    /* 45 fields */
    n = line_of(line, "E", "0", "00000000\t00000000", "00000000");
    IS(gurthapen_record_restore((const uint8_t *)line, n, LIST(energies), &next, 1), GURTHAPEN_NUMBER);
    /* more bytes than a line has are refused by their number alone, before one of them is read: there are not so many */
    IS(gurthapen_record_restore((const uint8_t *)line, (size_t)1 << 40, LIST(energies), &next, 1), GURTHAPEN_NUMBER);
    IS(next, 77);
}

static void listed(const char *line, uint32_t number, const char *answer) {
    uint8_t out[GURTHAPEN_LISTED + 5];
    size_t i, length = 9999;

    memset(out, '#', sizeof out);
    IS(gurthapen_list((const uint8_t *)line, strlen(line), number, LIST(out), &length, 1), 0);
    IS(length, strlen(answer));
    IS(memcmp(out, answer, strlen(answer)), 0);
    for (i = strlen(answer); i < sizeof out; i++)
        IS(out[i], '#');
}

/* The lister's answers. */
static void lister(void) {
    static char longest[2602];
    uint8_t out[GURTHAPEN_LISTED];
    size_t length;
    static const char request[] = "1\t0\t0\t1\t5\t64\t00";

    listed(request, 1, "R\t1\t1\t0\t0\t0\nB\t0\t8\t7\t1\n"); /* document 01's example */
    listed("1\t0\t0\t1\t\t\t00", 1, "R\t1\t1\t0\t0\t0\nB\t0\t8\t7\t1\n"); /* an empty trim is 5, an empty total 64 a byte */
    listed("1\t0\t0\t1\t5\t71\t00", 4294967295, "R\t4294967295\t1\t7\t0\t0\nB\t0\t8\t7\t0\n");
    listed("1\t0\t0\t1\t5\t-5\t", 0, "R\t0\t1\t0\t0\t0\nB\t0\t0\t0\t1\n");
    listed("", 7, "X\t7\t1\n");
    listed("1\t0\t0\t1\t5\t64\t0", 2, "X\t2\t1\n");
    listed("1\t0\t0\t1\t5\t64\t0G", 2, "X\t2\t1\n");
    listed("1\t0\t0\t1\t5\t64\tAA", 2, "X\t2\t1\n");
    listed("1\t0\t0\t1\t5\t64\t00\t", 2, "X\t2\t1\n");
    listed("1\t0\t0\t1\t5\t64", 2, "X\t2\t1\n");
    listed("3\t0\t0\t1\t5\t64\t00", 2, "X\t2\t1\n");
    listed("01\t0\t0\t1\t5\t64\t00", 2, "X\t2\t1\n");
    listed("1\t-0\t0\t1\t5\t64\t00", 2, "X\t2\t1\n");
    listed("1\t0\t0\t1\t5\t81601\t00", 2, "X\t2\t1\n");
    listed("1\t0\t0\t1\t5\t64\t00\n", 2, "X\t2\t1\n");

    /* a packet of 1,275 bytes, one of 1,276, and a line that is too long by one byte */
    memset(longest, '0', sizeof longest - 1);
    memcpy(longest, "1\t0\t0\t1\t5\t71\t", 13);
    longest[13 + 2 * 1275] = 0;
    listed(longest, 3, "R\t3\t1\t7\t0\t0\nB\t0\t8\t7\t0\n");
    longest[13 + 2 * 1275] = '0';
    longest[13 + 2 * 1276] = 0;
    listed(longest, 3, "X\t3\t1\n");
    longest[13 + 2 * 1276] = '0';
    IS(strlen(longest), 2601);
    listed(longest, 3, "X\t3\t1\n");

    /* a buffer that is too short, however short the answer */
    memset(out, '#', sizeof out);
    length = 55;
    IS(gurthapen_list((const uint8_t *)request, sizeof request - 1, 1, out, GURTHAPEN_LISTED - 1, &length, 1), GURTHAPEN_LENGTH);
    IS(gurthapen_list((const uint8_t *)request, sizeof request - 1, 1, out, 0, &length, 1), GURTHAPEN_LENGTH);
    IS(gurthapen_list((const uint8_t *)request, sizeof request - 1, 1, LIST(out), &length, 0), GURTHAPEN_LENGTH);
    IS(length, 55);
    IS(out[0], '#');
}

void try_record(void) {
    numbers();
    saved();
    lines();
    lister();
}

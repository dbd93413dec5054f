#define _GNU_SOURCE
#include "lend.h"
#include "chance.h"

#include <stdio.h>
#include <stdlib.h>
#include <string.h>
#include <sys/mman.h>
#include <unistd.h>

enum { MOST = 10, PAGE = 4096, GUARD = 64, MARK = 0xa7 };

static struct lent lists[MOST];
static size_t used;
static unsigned char *ours[MOST], *theirs[MOST]; /* the same memory, to write to and to read only */
static unsigned char *nowhere;                   /* a page that can be neither read nor written */

static unsigned char *mapped(int fd, int may, size_t slot) {
    unsigned char *whole = mmap(NULL, ROOM + 2 * PAGE, PROT_NONE, MAP_PRIVATE | MAP_ANONYMOUS, -1, 0);
    if (whole == MAP_FAILED || mmap(whole + PAGE, ROOM, may, MAP_SHARED | MAP_FIXED, fd, (off_t)(slot * ROOM)) == MAP_FAILED) {
        perror("fuzz: mmap");
        exit(2);
    }
    return whole + PAGE;
}

static void map_all(void) {
    size_t i;
    int fd = memfd_create("lent", 0);
    if (fd < 0 || ftruncate(fd, (off_t)MOST * ROOM) != 0) {
        perror("fuzz: memfd");
        exit(2);
    }
    for (i = 0; i < MOST; i++) {
        ours[i] = mapped(fd, PROT_READ | PROT_WRITE, i);
        theirs[i] = mapped(fd, PROT_READ, i);
    }
    nowhere = ours[0] + ROOM;
}

/* How many bytes before and after a list are looked at: as many as there is room for, at most GUARD. */
static size_t guard_before(const struct lent *l, size_t slot) {
    size_t room = (size_t)((unsigned char *)l->at - ours[slot]);
    return room < GUARD ? room : GUARD;
}

static size_t guard_after(const struct lent *l, size_t slot) {
    size_t room = (size_t)(ours[slot] + ROOM - ((unsigned char *)l->at + l->size * l->count));
    return room < GUARD ? room : GUARD;
}

static struct lent *lent(const char *name, size_t size, size_t count, int written) {
    struct lent *l = &lists[used];
    size_t free_bytes, offset;
    if (ours[0] == NULL)
        map_all();
    if (used == MOST || size * count > ROOM)
        wrong("this program lends too much", name);
    free_bytes = ROOM - size * count;
    /* six of ten directly before the page, three directly after one, one between; the room is a multiple of every size */
    offset = below(10) < 6 ? free_bytes : below(4) < 3 ? 0 : below(free_bytes / size + 1) * size;
    l->name = name, l->size = size, l->count = count, l->written = written, l->parts = 0;
    l->at = ours[used] + offset;
    l->given = (written ? ours : theirs)[used] + offset;
    memset((unsigned char *)l->at - guard_before(l, used), MARK, guard_before(l, used));
    memset((unsigned char *)l->at + size * count, MARK, guard_after(l, used));
    used++;
    return l;
}

struct lent *lend(const char *name, size_t size, size_t count) {
    return lent(name, size, count, 0);
}

struct lent *lend_for_writing(const char *name, size_t size, size_t count) {
    return lent(name, size, count, 1);
}

void may_change(struct lent *list, size_t from, size_t to) {
    list->part[list->parts][0] = from;
    list->part[list->parts][1] = to;
    list->parts++;
}

/* A state of twelve numbers: a call reads it to know how many bytes must be lent. */
static int tells_lengths(const struct lent *l) {
    return strcmp(l->name, "state") == 0 && l->count == 12;
}

void hide(int wrong_length) {
    size_t i;
    for (i = 0; wrong_length && i < used; i++)
        if (!tells_lengths(&lists[i]))
            lists[i].given = nowhere;
}

void take_back(void) {
    used = 0;
}

void before_the_call(void) {
    size_t i;
    for (i = 0; i < used; i++)
        memcpy(lists[i].before, lists[i].at, lists[i].size * lists[i].count);
}

static int marked(const unsigned char *bytes, size_t n) {
    size_t i;
    for (i = 0; i < n; i++)
        if (bytes[i] != MARK)
            return 0;
    return 1;
}

/* Whether elements from..to-1 are as they were. */
static int same(const struct lent *l, size_t from, size_t to) {
    if (to > l->count)
        to = l->count;
    return from >= to || memcmp((unsigned char *)l->at + from * l->size, l->before + from * l->size, (to - from) * l->size) == 0;
}

void after_the_call(uint32_t answer) {
    size_t i;
    for (i = 0; i < used; i++) {
        const struct lent *l = &lists[i];
        if (!marked((unsigned char *)l->at - guard_before(l, i), guard_before(l, i)))
            wrong("a byte before a list was written", l->name);
        if (!marked((unsigned char *)l->at + l->size * l->count, guard_after(l, i)))
            wrong("a byte after a list was written", l->name);
        if (!l->written && !same(l, 0, l->count))
            wrong("a list that is lent for reading was changed", l->name);
        if (answer != 0 && !same(l, 0, l->count))
            wrong("a refused call changed a list", l->name);
        if (l->parts >= 1 && !same(l, 0, l->part[0][0]))
            wrong("an element outside the call's places was changed", l->name);
        if (l->parts == 2 && !same(l, l->part[0][1], l->part[1][0]))
            wrong("an element outside the call's places was changed", l->name);
        if (l->parts >= 1 && !same(l, l->part[l->parts - 1][1], l->count))
            wrong("an element outside the call's places was changed", l->name);
    }
}

/* Lists that are lent to a call, in memory that shows what the call does to them.
 *
 * A list stands directly before a page that can be neither read nor written, or directly after one, or between bytes that are looked at after
 * the call. A list that the call may only read is seen by it in a page that cannot be written to. */
#ifndef LEND_H
#define LEND_H

#include <stddef.h>
#include <stdint.h>

enum { ROOM = 4 * 4096 }; /* bytes for the longest list */

struct lent {
    const char *name;
    size_t size, count;     /* of an element, of the list */
    int written;            /* the call may write to it */
    void *at;               /* where this program fills it and looks at it */
    void *given;            /* where the call sees it */
    size_t parts, part[2][2]; /* which elements an answered call may change: from, to; no parts: all */
    unsigned char before[ROOM];
};

/* A list, and how it is handed over. */
struct lent *lend(const char *name, size_t size, size_t count);        /* for reading */
struct lent *lend_for_writing(const char *name, size_t size, size_t count);
#define LENT(type, list) (type *)(list)->given, (list)->count

/* An answered call may change these elements only; of several parts, each. */
void may_change(struct lent *list, size_t from, size_t to);

/* Where a length is wrong the call must not read an entry: it sees every list in a page that can be neither read nor written, but for a state of
 * twelve numbers, one of which says how many bytes must be lent. */
void hide(int wrong_length);

/* Takes all lists back. */
void take_back(void);

/* Notes what the lists hold before the call; looks at them after it. What is wrong ends the program. */
void before_the_call(void);
void after_the_call(uint32_t answer);

/* Ends the program with a message that says which call of which seed it was. */
_Noreturn void wrong(const char *what, const char *which);

#endif

/* The calls of dependency lists, wrapped as those of calls.h are. */
#ifndef LIST_CALLS_H
#define LIST_CALLS_H

#include "calls.h"

/* A table of lists as lent. */
struct lists {
    const uint32_t *entries;
    size_t length;
};

struct verdict call_check_lists(const struct formula *f, const struct lists *d);
struct verdict call_listed_set_by(uint32_t scheme, const struct formula *f, const struct lists *d, uint32_t x,
                                  uint32_t *out, size_t out_len, uint32_t *count);

enum { LISTED_ENTRIES = 4000 };  /* entries of a table that a text is read into */

/* n and three tables, as a text with dependency lists says them. */
struct listed_formula {
    uint32_t n;
    uint32_t prefix[LISTED_ENTRIES], lists[LISTED_ENTRIES];
    int32_t clauses[LISTED_ENTRIES];
    size_t prefix_len, clauses_len, lists_len;
};

/* Reads into tables of the lengths that `h` says, and leaves in it what was read. */
struct verdict call_read_lists(const uint8_t *text, size_t length, struct listed_formula *h);
struct verdict call_write_lists(uint32_t rule, const struct listed_formula *h, uint8_t *text, size_t room, uint32_t *count);

#endif

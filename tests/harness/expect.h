/* What a test expects of a call, and formula A, which many tests start from. */
#ifndef EXPECT_H
#define EXPECT_H

#include "calls.h"

#define LEN(table) (sizeof(table) / sizeof *(table))

/* Formula A: n 9, blocks e 1 2, a 3, e 4 5, a 6, e 7 8 9, clauses {3 4 7} {-4 8} {6 9} {5 9} {1 5}. */
extern const struct formula formula_a;

enum { ROWS = 12 };  /* rows of its forest tables, which are longer than n */

/* The forest of A, as tables of ROWS rows, the last three filled with what no call may touch; and its tally. */
struct forest forest_a(void);

/* Scheme numbers that C may lend, and the scheme that each means: only SNOW_STRICT is the strict one. */
struct scheme {
    uint32_t number;
    enum snow_scheme means;
};

enum { SCHEMES = 7 };
extern const struct scheme schemes[SCHEMES];

void expect_accepted(struct verdict v, const char *call);
void expect_refused(struct verdict v, uint32_t number, uint32_t place, const char *call);
void expect_verdict(struct verdict v, struct verdict expected, const char *call);

/* Asks for the set of x, or, where of_set is 0, for its entry points; and for its size. By a scheme number, or, where by is NULL, by the call that names none. */
struct verdict ask_list(const struct formula *f, const struct forest *rows, int of_set, const struct scheme *by, uint32_t x,
                        uint32_t *out, size_t out_len, uint32_t *count);
struct verdict ask_size(const struct formula *f, const struct forest *rows, const struct scheme *by, uint32_t x, uint32_t *size);

/* Entry points, set and size of x, by every number of `schemes`; `room` entries are lent for a list, nine at most. */
void expect_by(const struct formula *f, const struct forest *w, uint32_t x, size_t room, struct verdict expected, const char *what);
void expect_refused_by(const struct formula *f, const struct forest *w, uint32_t x, size_t room, uint32_t number, uint32_t place,
                       const char *what);

/* All sets, by the call that names no scheme and by every number of `schemes`; `room` entries of a table are lent for the list. */
void expect_sets(const struct formula *f, const struct forest *w, uint32_t *out, size_t room, struct verdict expected, const char *what);
void expect_sets_refused(const struct formula *f, const struct forest *w, uint32_t *out, size_t room, uint32_t number, uint32_t place,
                         const char *what);

void expect_tally(const struct forest *w, uint32_t clauses, uint32_t merges, uint32_t classes, const char *what);
void expect_rows(const uint32_t *rows, const uint32_t *expected, size_t count, const char *what);

#endif

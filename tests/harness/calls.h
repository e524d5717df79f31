/*
 * The calls, each wrapped so that every use of it in the test also
 * compares every byte that was lent: on a refusal only *place may change, on
 * acceptance *place may not, nor anything past what was written. Answers are
 * handed out on acceptance only.
 */
#ifndef CALLS_H
#define CALLS_H

#include "snowcoddle.h"

/* A formula as lent. */
struct formula {
    uint32_t n;
    const uint32_t *prefix;
    size_t prefix_len;
    const int32_t *clauses;
    size_t clauses_len;
};

/* Forest tables as lent, and the tally beside them. */
struct forest {
    uint32_t *classes;
    size_t classes_len;
    uint32_t *parents;
    size_t parents_len;
    uint32_t *counts;
    size_t counts_len;
    struct snow_tally tally;
};

/* A number and a place; the place is 0 where the number is. */
struct verdict {
    uint32_t number;
    uint32_t place;
};

/* The rule by which every call below that takes a prefix or a file is asked to read it; SNOW_PLAIN until a test changes it. */
extern uint32_t reading_rule;

struct verdict call_check(const struct formula *f);
struct verdict call_build(const struct formula *f, struct forest *w, uint32_t *count);
struct verdict call_clause(const struct formula *f, uint32_t number, uint32_t *start, uint32_t *len);
struct verdict call_entry_point(const struct formula *f, const struct forest *w, uint32_t x, uint32_t y,
                                uint32_t *entry, uint32_t *rises);
struct verdict call_entry_points(const struct formula *f, const struct forest *w, uint32_t x,
                                 uint32_t *out, size_t out_len, uint32_t *count);
struct verdict call_set(const struct formula *f, const struct forest *w, uint32_t x,
                        uint32_t *out, size_t out_len, uint32_t *count);
struct verdict call_size(const struct formula *f, const struct forest *w, uint32_t x, uint32_t *size);
struct verdict call_entry_points_by(uint32_t scheme, const struct formula *f, const struct forest *w, uint32_t x,
                                    uint32_t *out, size_t out_len, uint32_t *count);
struct verdict call_set_by(uint32_t scheme, const struct formula *f, const struct forest *w, uint32_t x,
                           uint32_t *out, size_t out_len, uint32_t *count);
struct verdict call_size_by(uint32_t scheme, const struct formula *f, const struct forest *w, uint32_t x, uint32_t *size);
struct verdict call_sets(const struct formula *f, const struct forest *w, uint32_t *out, size_t out_len, uint32_t *count);
struct verdict call_sets_by(uint32_t scheme, const struct formula *f, const struct forest *w, uint32_t *out, size_t out_len, uint32_t *count);
struct verdict call_resolution_set(const struct formula *f, uint32_t x, uint32_t *out, size_t out_len, uint32_t *count);
struct verdict call_add(const struct formula *f, struct forest *w, const int32_t *clause, size_t clause_len);
struct verdict call_read(const uint8_t *text, size_t text_len, uint32_t *n,
                         uint32_t *prefix, size_t prefix_len, uint32_t *prefix_count,
                         int32_t *clauses, size_t clauses_len, uint32_t *clauses_count);
struct verdict call_write(const struct formula *f, uint8_t *text, size_t text_len, uint32_t *count);

/* What reading a file fills: tables as lent, and what it says of them. */
struct loaded {
    uint32_t n;
    uint32_t *prefix;
    size_t prefix_len;
    uint32_t prefix_count;
    int32_t *clauses;
    size_t clauses_len;
    uint32_t clauses_count;
    struct forest rows;
    uint32_t with_sets;
};

struct verdict call_store(const struct formula *f, uint8_t *file, size_t file_len, uint32_t *count);
struct verdict call_load(const uint8_t *file, size_t file_len, struct loaded *t);
struct verdict call_path(const struct formula *f, uint32_t x, uint32_t y, const uint32_t *path, size_t path_len);

/* What expanding fills: tables as lent, and what it says of them. */
struct expanded {
    uint32_t n;
    uint32_t *prefix;
    size_t prefix_len;
    uint32_t prefix_count;
    int32_t *clauses;
    size_t clauses_len;
    uint32_t clauses_count;
};

struct verdict call_expand(const struct formula *f, uint32_t x, struct expanded *t);

/* The verdict of any call with its cell `place`, once the answer of an accepted one has been taken. */
struct verdict settle_at(uint32_t number, uint32_t *cell);

#endif

/* What a test expects of a call, and formula A. */
#include <string.h>

#include "comparisons.h"
#include "expect.h"

static const uint32_t a_prefix[] = { 1, 1, 2, 0, 2, 3, 0, 1, 4, 5, 0, 2, 6, 0, 1, 7, 8, 9, 0 };
static const int32_t a_clauses[] = { 3, 4, 7, 0, -4, 8, 0, 6, 9, 0, 5, 9, 0, 1, 5, 0 };

const struct formula formula_a = { 9, a_prefix, LEN(a_prefix), a_clauses, LEN(a_clauses) };

const struct scheme schemes[SCHEMES] = {
    { SNOW_STANDARD, SNOW_STANDARD },
    { SNOW_STRICT, SNOW_STRICT },
    { 0, SNOW_STANDARD },
    { 3, SNOW_STANDARD },
    /* numbers with 2, that of SNOW_STRICT, in their lower bits */
    { 0x102, SNOW_STANDARD },
    { 0x80000002, SNOW_STANDARD },
    { 0xFFFFFFFF, SNOW_STANDARD },
};

struct forest forest_a(void)
{
    static const uint32_t a_classes[ROWS] = { 1, 2, 0, 4, 5, 0, 7, 8, 9, 0xFFFFFFFF, 77, 0 };
    static const uint32_t a_parents[ROWS] = { 0, 0, 0, 0, 1, 0, 4, 4, 5, 0xFFFFFFFF, 77, 0 };
    static const uint32_t a_counts[ROWS] = { 3, 1, 0, 3, 2, 0, 1, 1, 1, 0xFFFFFFFF, 77, 0 };
    static uint32_t classes[ROWS], parents[ROWS], counts[ROWS];
    struct forest w = { classes, ROWS, parents, ROWS, counts, ROWS, { 5, 0, 7 } };

    memcpy(classes, a_classes, sizeof classes);
    memcpy(parents, a_parents, sizeof parents);
    memcpy(counts, a_counts, sizeof counts);
    return w;
}

void expect_verdict(struct verdict v, struct verdict expected, const char *call)
{
    agree(v.number == expected.number && v.place == expected.place, call);
}

void expect_accepted(struct verdict v, const char *call)
{
    agree(v.number == 0, call);
}

void expect_refused(struct verdict v, uint32_t number, uint32_t place, const char *call)
{
    agree(v.number == number && v.place == place, call);
}

struct verdict ask_list(const struct formula *f, const struct forest *rows, int of_set, const struct scheme *by, uint32_t x,
                        uint32_t *out, size_t out_len, uint32_t *count)
{
    if (by == NULL)
        return (of_set ? call_set : call_entry_points)(f, rows, x, out, out_len, count);
    return (of_set ? call_set_by : call_entry_points_by)(by->number, f, rows, x, out, out_len, count);
}

struct verdict ask_size(const struct formula *f, const struct forest *rows, const struct scheme *by, uint32_t x, uint32_t *size)
{
    return by == NULL ? call_size(f, rows, x, size) : call_size_by(by->number, f, rows, x, size);
}

void expect_by(const struct formula *f, const struct forest *w, uint32_t x, size_t room, struct verdict expected, const char *what)
{
    uint32_t out[9] = { 0 }, count, size;
    size_t k;

    for (k = 0; k < LEN(schemes); k++) {
        expect_verdict(call_entry_points_by(schemes[k].number, f, w, x, out, room, &count), expected, what);
        expect_verdict(call_set_by(schemes[k].number, f, w, x, out, room, &count), expected, what);
        expect_verdict(call_size_by(schemes[k].number, f, w, x, &size), expected, what);
    }
}

void expect_refused_by(const struct formula *f, const struct forest *w, uint32_t x, size_t room, uint32_t number, uint32_t place,
                       const char *what)
{
    struct verdict expected = { number, place };

    expect_by(f, w, x, room, expected, what);
}

void expect_sets(const struct formula *f, const struct forest *w, uint32_t *out, size_t room, struct verdict expected, const char *what)
{
    uint32_t count;
    size_t k;

    expect_verdict(call_sets(f, w, out, room, &count), expected, what);
    for (k = 0; k < LEN(schemes); k++)
        expect_verdict(call_sets_by(schemes[k].number, f, w, out, room, &count), expected, what);
}

void expect_sets_refused(const struct formula *f, const struct forest *w, uint32_t *out, size_t room, uint32_t number, uint32_t place,
                         const char *what)
{
    struct verdict expected = { number, place };

    expect_sets(f, w, out, room, expected, what);
}

void expect_tally(const struct forest *w, uint32_t clauses, uint32_t merges, uint32_t classes, const char *what)
{
    agree(w->tally.clauses == clauses && w->tally.merges == merges && w->tally.classes == classes, what);
}

void expect_rows(const uint32_t *rows, const uint32_t *expected, size_t count, const char *what)
{
    agree(count == 0 || memcmp(rows, expected, count * sizeof *rows) == 0, what);
}

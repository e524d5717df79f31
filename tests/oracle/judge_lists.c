/* What check with lists says of a table of dependency lists. */
#include "judge_lists.h"
#include "judge_tables.h"

int judge_opens_list(const struct lists *d, size_t e)
{
    return e == 0 || d->entries[e - 1] == 0;
}

/* Entries b and e stand in one list, b before e. */
static int one_list(const struct lists *d, size_t b, size_t e)
{
    size_t c;

    for (c = b + 1; c <= e; c++)
        if (judge_opens_list(d, c))
            return 0;
    return 1;
}

int judge_in_block(const struct formula *f, uint32_t v)
{
    size_t e;

    for (e = 1; e < f->prefix_len; e++)
        if (f->prefix[e - 1] != 0 && f->prefix[e] != 0 && f->prefix[e] == v)
            return 1;
    return 0;
}

/* 25 at entry e: y out of range or already placed. */
static int wrong_existential(const struct formula *f, const struct lists *d, size_t e)
{
    uint32_t y = d->entries[e];
    size_t b;

    if (!judge_opens_list(d, e))
        return 0;
    if (y < 1 || y > f->n || judge_in_block(f, y))
        return 1;
    for (b = 0; b < e; b++)
        if (judge_opens_list(d, b) && d->entries[b] == y)
            return 1;
    return 0;
}

/* 26 at entry e: an x that is no universal, or comes twice in its list. */
static int wrong_universal(const struct formula *f, const struct lists *d, size_t e)
{
    uint32_t x = d->entries[e];
    size_t b;

    if (judge_opens_list(d, e) || x == 0)
        return 0;
    if (x > f->n || !judge_universal(f, x))
        return 1;
    for (b = 0; b < e; b++)
        if (!judge_opens_list(d, b) && d->entries[b] == x && one_list(d, b, e))
            return 1;
    return 0;
}

struct verdict judge_lists(const struct formula *f, const struct lists *d)
{
    struct verdict v = judge_formula(f);
    size_t e;

    if (v.number != 23 && v.number != 1 && d->length > SNOW_MOST_LISTS) {
        v.number = 2;
        v.place = 0;
    }
    for (e = 0; v.number == 0 && e < d->length; e++) {
        v.number = wrong_existential(f, d, e) ? 25 : wrong_universal(f, d, e) ? 26 : 0;
        v.place = v.number != 0 ? (uint32_t)e : 0;
    }
    if (v.number == 0 && d->length > 0 && d->entries[d->length - 1] != 0) {
        v.number = 11;
        v.place = (uint32_t)d->length;
    }
    return v;
}

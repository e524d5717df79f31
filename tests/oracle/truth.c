/* Whether a small formula is true, by trying its variables out. */
#include "truth.h"

/* The variables in the order in which they are tried, free ones first, and their quantifiers and values. */
static uint32_t order[64];
static unsigned char for_all[64], value[64];
static uint32_t ordered;

static void put_order(const uint32_t *prefix, size_t prefix_len, uint32_t n)
{
    uint32_t v, mark = 0;
    size_t e;
    int opens = 1, named;

    ordered = 0;
    for (v = 1; v <= n; v++) {
        named = 0;
        for (e = 1; e < prefix_len; e++)
            named |= prefix[e] == v && prefix[e - 1] != 0;
        if (!named) {
            for_all[ordered] = 0;
            order[ordered++] = v;
        }
    }
    for (e = 0; e < prefix_len; e++) {
        if (opens)
            mark = prefix[e];
        else if (prefix[e] != 0) {
            for_all[ordered] = mark == 2;
            order[ordered++] = prefix[e];
        }
        opens = prefix[e] == 0;
    }
}

static uint32_t variable(int32_t literal)
{
    return (uint32_t)(literal < 0 ? -literal : literal);
}

static int satisfied(const int32_t *clauses, size_t clauses_len)
{
    size_t e;
    int some = 0;

    for (e = 0; e < clauses_len; e++) {
        if (clauses[e] != 0)
            some |= value[variable(clauses[e])] == (clauses[e] > 0);
        else if (!some)
            return 0;
        else
            some = 0;
    }
    return 1;
}

/* Whether the formula is true once the first `tried` variables of the order have values. */
static int holds(const int32_t *clauses, size_t clauses_len, uint32_t tried)
{
    int side, truth = 0;

    if (tried == ordered)
        return satisfied(clauses, clauses_len);
    for (side = 0; side <= 1; side++) {
        value[order[tried]] = (unsigned char)side;
        truth = holds(clauses, clauses_len, tried + 1);
        if (truth != for_all[tried])
            return truth;
    }
    return truth;
}

int is_true(const uint32_t *prefix, size_t prefix_len, uint32_t n, const int32_t *clauses, size_t clauses_len)
{
    put_order(prefix, prefix_len, n);
    return holds(clauses, clauses_len, 0);
}

/* What the path check says, written from rule 11.1 and rule 11.2. */
#include "judge_path.h"
#include "judge_tables.h"

/* The first entry of clause k, by counting zeros. */
static size_t first_entry(const struct formula *f, uint32_t k)
{
    size_t e = 0;

    for (; k > 0; e++)
        k -= f->clauses[e] == 0;
    return e;
}

int judge_has(const struct formula *f, uint32_t k, uint32_t v)
{
    size_t e;

    for (e = first_entry(f, k); f->clauses[e] != 0; e++)
        if (f->clauses[e] == (int32_t)v || f->clauses[e] == -(int32_t)v)
            return 1;
    return 0;
}

int judge_always_true(const struct formula *f, uint32_t k)
{
    size_t start = first_entry(f, k), d, e;

    for (d = start; f->clauses[d] != 0; d++)
        for (e = start; f->clauses[e] != 0; e++)
            if (f->clauses[d] == -f->clauses[e])
                return 1;
    return 0;
}

int judge_deeper(const struct formula *f, uint32_t x, uint32_t y)
{
    return judge_existential(f, y) && judge_block(f, y) > judge_block(f, x);
}

int judge_share(const struct formula *f, uint32_t x, uint32_t k, uint32_t l)
{
    uint32_t v;

    for (v = 1; v <= f->n; v++)
        if (judge_has(f, k, v) && judge_has(f, l, v) && judge_deeper(f, x, v))
            return 1;
    return 0;
}

/* Whether a path fails at entry i, for one of the four reasons. */
static int fails(const struct formula *f, uint32_t x, uint32_t y, const uint32_t *path, size_t path_len, size_t i)
{
    return judge_always_true(f, path[i]) || (i == 0 && !judge_has(f, path[i], x))
        || (i > 0 && !judge_share(f, x, path[i - 1], path[i])) || (i + 1 == path_len && !judge_has(f, path[i], y));
}

struct verdict judge_path(const struct formula *f, uint32_t x, uint32_t y, const uint32_t *path, size_t path_len)
{
    struct verdict v = { 0, 0 };
    size_t i;

    if (!judge_universal(f, x) || !judge_deeper(f, x, y))
        v.number = 13;
    for (i = 0; i < path_len; i++)
        if (path[i] >= judge_clause_count(f))
            v.number = 13;
    if (v.number != 0)
        return v;
    for (i = 0; i < path_len && !fails(f, x, y, path, path_len, i); i++)
        continue;
    if (path_len == 0 || i < path_len) {
        v.number = 24;
        v.place = (uint32_t)i;
    }
    return v;
}

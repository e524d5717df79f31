/* Counts which shapes of formulas, forests and tallies the random tests came across. */
#include <stdio.h>

#include "comparisons.h"
#include "judge_tables.h"
#include "shapes_seen.h"

static const struct {
    const char *what;
    unsigned long least;
} shapes[SHAPES] = {
    [SAW_FORMULA] = { "formulas that are accepted and searched", 1 },
    [SAW_FREE] = { "formulas with free variables", 1 },
    [SAW_NO_BLOCKS] = { "formulas with no blocks", 1 },
    [SAW_MOST_BLOCKS] = { "formulas with 64 blocks", 1 },
    [SAW_UNIVERSAL_LAST] = { "formulas with a universal innermost block", 1 },
    [SAW_NO_CLAUSES] = { "formulas with no clauses", 1 },
    [SAW_EMPTY_CLAUSE] = { "formulas with an empty clause", 1 },
    [SAW_REPEATED] = { "formulas with a repeated literal", 1 },
    [SAW_COMPLEMENTARY] = { "formulas with complementary literals", 1 },
    [SAW_SHORTER] = { "strict lists that are not empty and shorter than the standard ones", 200 },
    [SAW_FOREST_WRONG] = { "forests with a row made wrong, or lacking one", 1 },
    [SAW_FOREST_CHANGED] = { "forests with a row changed and none wrong", 1 },
    [SAW_TALLY_WRONG] = { "tallies that are wrong", 1 },
    [SAW_TALLY_TAKEN] = { "tallies that were changed, or are at the limit, and are right", 1 },
};

static unsigned long counts[SHAPES];

void saw(enum shape what)
{
    counts[what]++;
}

static int in_a_block(const struct formula *f, uint32_t v)
{
    size_t e;

    for (e = 1; e < f->prefix_len; e++)
        if (f->prefix[e - 1] != 0 && f->prefix[e] == v)
            return 1;
    return 0;
}

/* The free variables and the blocks; every block has a variable. */
static void saw_prefix(const struct formula *f)
{
    uint32_t v, blocks = 0, free_ones = 0, universal = 0;

    for (v = 1; v <= f->n; v++) {
        free_ones += !in_a_block(f, v);
        if (judge_block(f, v) > blocks) {
            blocks = judge_block(f, v);
            universal = (uint32_t)judge_universal(f, v);
        }
    }
    counts[SAW_FREE] += free_ones > 0;
    counts[SAW_NO_BLOCKS] += blocks == 0;
    counts[SAW_MOST_BLOCKS] += blocks == SNOW_MOST_BLOCKS;
    counts[SAW_UNIVERSAL_LAST] += universal;
}

/* Whether a clause has a literal twice, or, with the sign -1, a literal and its complement. */
static int has_pair(const struct formula *f, int32_t sign)
{
    size_t e, k;

    for (e = 0; e < f->clauses_len; e++)
        for (k = e + 1; f->clauses[e] != 0 && f->clauses[k] != 0; k++)
            if (f->clauses[k] == sign * f->clauses[e])
                return 1;
    return 0;
}

static int has_empty_clause(const struct formula *f)
{
    size_t e;

    for (e = 0; e < f->clauses_len; e++)
        if (f->clauses[e] == 0 && (e == 0 || f->clauses[e - 1] == 0))
            return 1;
    return 0;
}

void saw_formula(const struct formula *f)
{
    counts[SAW_FORMULA]++;
    saw_prefix(f);
    counts[SAW_NO_CLAUSES] += f->clauses_len == 0;
    counts[SAW_EMPTY_CLAUSE] += (unsigned long)has_empty_clause(f);
    counts[SAW_REPEATED] += (unsigned long)has_pair(f, 1);
    counts[SAW_COMPLEMENTARY] += (unsigned long)has_pair(f, -1);
}

void compare_shapes_seen(void)
{
    enum shape k;

    for (k = SAW_FORMULA; k < SHAPES; k++) {
        printf("%7lu %s\n", counts[k], shapes[k].what);
        agree(counts[k] >= shapes[k].least, shapes[k].what);
    }
}

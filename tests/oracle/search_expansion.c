/* A universal expanded, step by step as rule 12.2 and rule 12.3 have it. */
#include <string.h>

#include "search.h"
#include "search_expansion.h"

static struct world world;

/* What comes out. */
static struct made expected;

/* The copy of each member of the set of x; 0 for all others. */
static uint32_t copy_of[SMALL + 1];

static uint32_t variable(int32_t literal)
{
    return (uint32_t)(literal < 0 ? -literal : literal);
}

/* Members get copies numbered from n + 1 in ascending order. */
static void number_copies(const struct formula *f, uint32_t x)
{
    uint32_t y, next = f->n;

    search_variables(&world, f);
    search_clauses(&world, f);
    search_close(&world);
    for (y = 1; y <= f->n; y++)
        copy_of[y] = search_in_set(&world, SNOW_STANDARD, x, y) ? ++next : 0;
    expected.n = next;
}

/* The blocks of a prefix, one by one. */
struct block {
    uint32_t mark;
    uint32_t variables[2 * SMALL];
    size_t count;
};

static struct block blocks[MADE_BLOCKS];
static size_t block_count;

/* The blocks as lent; x leaves its block, and each copy is placed after its original. */
static void take_blocks(const struct formula *f, uint32_t x)
{
    size_t e = 0;

    for (block_count = 0; e < f->prefix_len; block_count++) {
        struct block *b = &blocks[block_count];

        b->mark = f->prefix[e++];
        b->count = 0;
        for (; f->prefix[e] != 0; e++) {
            if (f->prefix[e] == x)
                continue;
            b->variables[b->count++] = f->prefix[e];
            if (copy_of[f->prefix[e]] != 0)
                b->variables[b->count++] = copy_of[f->prefix[e]];
        }
        e++;
    }
}

/* Empty blocks go. */
static void drop_empty(void)
{
    size_t b, kept = 0;

    for (b = 0; b < block_count; b++)
        if (blocks[b].count > 0)
            blocks[kept++] = blocks[b];
    block_count = kept;
}

/* Equal neighbours join: the second of two goes into the first, until there are none. */
static void join_equal(void)
{
    size_t b = 0;

    while (b + 1 < block_count) {
        if (blocks[b].mark != blocks[b + 1].mark) {
            b++;
            continue;
        }
        memcpy(blocks[b].variables + blocks[b].count, blocks[b + 1].variables, blocks[b + 1].count * sizeof *blocks[b].variables);
        blocks[b].count += blocks[b + 1].count;
        memmove(&blocks[b + 1], &blocks[b + 2], (block_count - b - 2) * sizeof *blocks);
        block_count--;
    }
}

static void make_prefix(const struct formula *f, uint32_t x)
{
    size_t b, k;

    take_blocks(f, x);
    drop_empty();
    join_equal();
    expected.prefix_len = 0;
    for (b = 0; b < block_count; b++) {
        expected.prefix[expected.prefix_len++] = blocks[b].mark;
        for (k = 0; k < blocks[b].count; k++)
            expected.prefix[expected.prefix_len++] = blocks[b].variables[k];
        expected.prefix[expected.prefix_len++] = 0;
    }
}

static int has(const int32_t *clause, int32_t literal)
{
    for (; *clause != 0; clause++)
        if (*clause == literal)
            return 1;
    return 0;
}

static int always_true(const int32_t *clause)
{
    const int32_t *l;

    for (l = clause; *l != 0; l++)
        if (has(clause, -*l))
            return 1;
    return 0;
}

static int has_member(const int32_t *clause)
{
    for (; *clause != 0; clause++)
        if (copy_of[variable(*clause)] != 0)
            return 1;
    return 0;
}

/* A copy of a clause with x false, or with x true and members renamed. */
static void make_copy(const int32_t *clause, uint32_t x, int second)
{
    int32_t gone = second ? -(int32_t)x : (int32_t)x;

    if (always_true(clause) || has(clause, -gone) || (second && !has(clause, gone) && !has_member(clause)))
        return;
    for (; *clause != 0; clause++) {
        int32_t copy = (int32_t)copy_of[variable(*clause)];

        if (*clause != gone)
            expected.clauses[expected.clauses_len++] = !second || copy == 0 ? *clause : *clause < 0 ? -copy : copy;
    }
    expected.clauses[expected.clauses_len++] = 0;
}

static void make_clauses(const struct formula *f, uint32_t x)
{
    size_t e;
    int second;

    expected.clauses_len = 0;
    for (second = 0; second <= 1; second++)
        for (e = 0; e < f->clauses_len; e++)
            if (e == 0 || f->clauses[e - 1] == 0)
                make_copy(f->clauses + e, x, second);
}

const struct made *search_expansion(const struct formula *f, uint32_t x)
{
    number_copies(f, x);
    make_prefix(f, x);
    make_clauses(f, x);
    return &expected;
}

size_t search_literal_total(const struct formula *f, uint32_t x)
{
    size_t e, total = 0;

    for (e = 0; e < f->clauses_len; e++) {
        const int32_t *clause = f->clauses + e, *l;
        size_t length = 0, own = 0;

        if (e > 0 && f->clauses[e - 1] != 0)
            continue;
        for (l = clause; *l != 0; l++) {
            length++;
            own += variable(*l) == x;
        }
        if (!always_true(clause))
            total += own > 0 ? length - own : has_member(clause) ? 2 * length : length;
    }
    return total;
}

/* The resolution-path set of a universal, by a walk that is written from rule 14.1 and rule 14.2. */
#include <string.h>

#include "judge_tables.h"
#include "search.h"
#include "search_resolution.h"

static uint32_t variable(int32_t literal)
{
    return (uint32_t)(literal < 0 ? -literal : literal);
}

static size_t row(int32_t literal)
{
    return 2 * (size_t)variable(literal) + (literal < 0);
}

static int deeper(const struct formula *f, uint32_t x, uint32_t v)
{
    return judge_existential(f, v) && judge_block(f, v) > judge_block(f, x);
}

/* The variables that a path may pass, for the x that is asked for. */
static unsigned char passable[SMALL + 1];

/* A clause with both signs of one variable takes no part. */
static int takes_part(const int32_t *clause, size_t length)
{
    size_t i, k;

    for (i = 0; i < length; i++)
        for (k = 0; k < length; k++)
            if (clause[i] == -clause[k])
                return 0;
    return 1;
}

/* A clause is entered by the literal that the path is from, and by the complement of each end that may be passed. */
static int enters(int32_t from, const unsigned char *ends, int32_t literal)
{
    return literal == from || (ends[row(-literal)] && passable[variable(literal)]);
}

/* Marks the ends of paths that leave by one clause; whether one is new. */
static int through(const int32_t *clause, size_t length, int32_t from, unsigned char *ends)
{
    size_t i, k;
    int more = 0;

    for (i = 0; i < length; i++) {
        for (k = 0; k < length && enters(from, ends, clause[i]); k++) {
            if (variable(clause[k]) == variable(clause[i]) || ends[row(clause[k])])
                continue;
            ends[row(clause[k])] = 1;
            more = 1;
        }
    }
    return more;
}

/* The ends of all paths from a literal of x. */
static void find_ends(const struct formula *f, int32_t from, unsigned char *ends)
{
    size_t e, start;
    int more = 1;

    memset(ends, 0, 2 * SMALL + 2);
    while (more) {
        more = 0;
        for (e = start = 0; e < f->clauses_len; e++) {
            if (f->clauses[e] != 0)
                continue;
            if (takes_part(f->clauses + start, e - start))
                more |= through(f->clauses + start, e - start, from, ends);
            start = e + 1;
        }
    }
}

uint32_t search_resolution_set(const struct formula *f, uint32_t x, uint32_t *list)
{
    static unsigned char ends[2 * SMALL + 2], others[2 * SMALL + 2];
    uint32_t y, count = 0;

    for (y = 1; y <= f->n; y++)
        passable[y] = (unsigned char)deeper(f, x, y);
    find_ends(f, (int32_t)x, ends);
    find_ends(f, -(int32_t)x, others);
    for (y = 1; y <= f->n; y++) {
        int32_t l = (int32_t)y;

        if (passable[y] && ((ends[row(l)] && others[row(-l)]) || (ends[row(-l)] && others[row(l)])))
            list[count++] = y;
    }
    return count;
}

/* An independent slow search, written from rule 2.1 to rule 2.8. */
#include <string.h>

#include "judge_tables.h"
#include "search.h"

void search_variables(struct world *w, const struct formula *f)
{
    uint32_t v;

    memset(w, 0, sizeof *w);
    w->n = f->n;
    for (v = 1; v <= f->n; v++) {
        w->block[v] = judge_block(f, v);
        w->existential[v] = (unsigned char)judge_existential(f, v);
    }
}

static uint32_t variable(int32_t literal)
{
    return (uint32_t)(literal < 0 ? -literal : literal);
}

/* A clause with both signs of one variable is always true. */
static int always_true(const int32_t *clause, size_t clause_len)
{
    size_t i, k;

    for (i = 0; i < clause_len; i++)
        for (k = 0; k < clause_len; k++)
            if (clause[i] == -clause[k])
                return 1;
    return 0;
}

void search_join(struct world *w, const int32_t *clause, size_t clause_len)
{
    size_t i, k;

    if (always_true(clause, clause_len))
        return;
    for (i = 0; i < clause_len; i++) {
        for (k = 0; k < clause_len; k++) {
            w->together[variable(clause[i])][variable(clause[k])] = 1;
            w->beside[clause[i] < 0][variable(clause[i])][variable(clause[k])] = 1;
        }
    }
}

void search_clauses(struct world *w, const struct formula *f)
{
    size_t start = 0, e;

    for (e = 0; e < f->clauses_len; e++) {
        if (f->clauses[e] != 0)
            continue;
        search_join(w, f->clauses + start, e - start);
        start = e + 1;
    }
}

static void join_two(struct world *w, uint32_t a, uint32_t b)
{
    int32_t two[2];

    two[0] = (int32_t)a;
    two[1] = (int32_t)b;
    search_join(w, two, 2);
}

void search_forest(struct world *w, const struct forest *rows)
{
    uint32_t v;

    for (v = 1; v <= w->n; v++) {
        if (w->existential[v])
            join_two(w, v, rows->classes[v - 1]);
        if (rows->parents[v - 1] != 0)
            join_two(w, v, rows->parents[v - 1]);
    }
}

/* At level i, v steps to y if y is existential, y's block is at least i, and one clause has both. */
static int steps(const struct world *w, uint32_t i, uint32_t v, uint32_t y)
{
    return w->existential[y] && w->block[y] >= i && w->together[v][y];
}

/* One more step at level i from all that v reaches; whether that gave anything new. */
static int one_step(struct world *w, uint32_t i, uint32_t v)
{
    uint32_t y, z;
    int more = 0;

    for (y = 1; y <= w->n; y++) {
        if (!w->reach[i][v][y])
            continue;
        for (z = 1; z <= w->n; z++) {
            if (w->reach[i][v][z] || !steps(w, i, y, z))
                continue;
            w->reach[i][v][z] = 1;
            more = 1;
        }
    }
    return more;
}

/* The deepest block; no question goes to a deeper level. */
static uint32_t deepest(const struct world *w)
{
    uint32_t v, most = 0;

    for (v = 1; v <= w->n; v++)
        if (w->block[v] > most)
            most = w->block[v];
    return most;
}

void search_close(struct world *w)
{
    uint32_t i, v, most = deepest(w);

    memset(w->reach, 0, sizeof w->reach);
    for (i = 0; i <= most; i++) {
        for (v = 1; v <= w->n; v++) {
            /* any number of steps, none included */
            w->reach[i][v][v] = 1;
            while (one_step(w, i, v))
                continue;
        }
    }
}

/* Two existentials of one block are in one class if one reaches the other at that level. */
static int one_class(const struct world *w, uint32_t a, uint32_t b)
{
    uint32_t j = w->block[a];

    return w->existential[a] && w->existential[b] && w->block[b] == j && (w->reach[j][a][b] || w->reach[j][b][a]);
}

uint32_t search_class(const struct world *w, uint32_t v)
{
    uint32_t y;

    for (y = 1; y <= w->n; y++)
        if (one_class(w, v, y))
            return y;
    return 0;
}

static int names_class(const struct world *w, uint32_t v)
{
    return search_class(w, v) == v;
}

/* Class p is above class c if p's block is less and p reaches c at the level of p's block. */
static int above(const struct world *w, uint32_t p, uint32_t c)
{
    return names_class(w, p) && w->block[p] < w->block[c] && w->reach[w->block[p]][p][c];
}

uint32_t search_parent(const struct world *w, uint32_t v)
{
    uint32_t p, deepest = 0;

    if (!names_class(w, v))
        return 0;
    for (p = 1; p <= w->n; p++)
        if (above(w, p, v) && (deepest == 0 || w->block[p] > w->block[deepest]))
            deepest = p;
    return deepest;
}

uint32_t search_count(const struct world *w, uint32_t v)
{
    uint32_t y, count = 0;

    for (y = 1; names_class(w, v) && y <= w->n; y++)
        count += w->existential[y] && (search_class(w, y) == v || above(w, v, search_class(w, y)));
    return count;
}

uint32_t search_existentials(const struct world *w)
{
    uint32_t v, count = 0;

    for (v = 1; v <= w->n; v++)
        count += w->existential[v];
    return count;
}

uint32_t search_classes(const struct world *w)
{
    uint32_t v, count = 0;

    for (v = 1; v <= w->n; v++)
        count += (uint32_t)names_class(w, v);
    return count;
}

/* y is reached from x at the level of x's block, by a first step in a clause that has x in one sign: 0 for x itself, 1 for its negation. */
static int reached_through(const struct world *w, int sign, uint32_t x, uint32_t y)
{
    uint32_t z, i = w->block[x];

    for (z = 1; z <= w->n; z++)
        if (w->beside[sign][x][z] && w->existential[z] && w->block[z] >= i && w->reach[i][z][y])
            return 1;
    return 0;
}

int search_in_set(const struct world *w, enum snow_scheme scheme, uint32_t x, uint32_t y)
{
    if (scheme == SNOW_STRICT)
        return reached_through(w, 0, x, y) && reached_through(w, 1, x, y);
    return w->existential[y] && w->reach[w->block[x]][x][y];
}

int search_deeper(const struct world *w, uint32_t x, uint32_t y)
{
    return y >= 1 && y <= w->n && w->existential[y] && w->block[y] > w->block[x];
}

uint32_t search_entry(const struct world *w, uint32_t x, uint32_t y, uint32_t *rises)
{
    uint32_t c = search_class(w, y), least = c, p;

    *rises = 0;
    for (p = 1; p <= w->n; p++) {
        if (!above(w, p, c) || w->block[p] <= w->block[x])
            continue;
        /* p is passed on the way up to the least deep one */
        ++*rises;
        if (w->block[p] < w->block[least])
            least = p;
    }
    return least;
}

uint32_t search_lent_entry(const struct world *w, const struct forest *rows, uint32_t x, uint32_t y, uint32_t *rises)
{
    uint32_t c = rows->classes[y - 1];

    *rises = 0;
    while (rows->parents[c - 1] != 0 && w->block[rows->parents[c - 1]] > w->block[x]) {
        c = rows->parents[c - 1];
        ++*rises;
    }
    return c;
}

/* e is the entry point of x for some y of those given, one flag for each. */
static int entry_for_some(const struct world *w, const struct forest *rows, const unsigned char *given, uint32_t x, uint32_t e)
{
    uint32_t y, rises;

    for (y = 1; y <= w->n; y++)
        if (given[y] && search_deeper(w, x, y) && search_lent_entry(w, rows, x, y, &rises) == e)
            return 1;
    return 0;
}

int search_lent_entry_point(const struct world *w, const struct forest *rows, enum snow_scheme scheme, uint32_t x, uint32_t e)
{
    if (scheme == SNOW_STRICT)
        return entry_for_some(w, rows, w->beside[0][x], x, e) && entry_for_some(w, rows, w->beside[1][x], x, e);
    return entry_for_some(w, rows, w->together[x], x, e);
}

int search_lent_in_set(const struct world *w, const struct forest *rows, enum snow_scheme scheme, uint32_t x, uint32_t y)
{
    uint32_t c;

    if (!w->existential[y])
        return 0;
    for (c = rows->classes[y - 1]; c != 0; c = rows->parents[c - 1])
        if (search_lent_entry_point(w, rows, scheme, x, c))
            return 1;
    return 0;
}

/* The path check under both reading rules: by hand on formula A, on long paths, and on random formulas against the judge and the slow search. */
#include <string.h>

#include "comparisons.h"
#include "conformance.h"
#include "expect.h"
#include "generator.h"
#include "judge_path.h"
#include "judge_tables.h"
#include "search.h"
#include "search_path.h"

/* A with an always-true clause behind its own, number 5: {3 8 -8}. */
static const int32_t clauses[] = { 3, 4, 7, 0, -4, 8, 0, 6, 9, 0, 5, 9, 0, 1, 5, 0, 3, 8, -8, 0 };

/* The blocks of A over more lines, which only joining takes. */
static const uint32_t spread[] = { 1, 0, 1, 1, 0, 1, 2, 0, 2, 3, 0, 1, 0, 2, 0, 1, 4, 0, 2, 0, 1, 5, 0, 2, 6, 0, 1, 7, 0, 1, 8, 9, 0 };

static struct formula with_true_clause(void)
{
    struct formula f = formula_a;

    f.clauses = clauses;
    f.clauses_len = LEN(clauses);
    return f;
}

/* A pair, a path, and what is said of it. */
struct sample {
    uint32_t number, place;
    uint32_t x, y;
    size_t length;
    uint32_t path[6];
};

static const struct sample samples[] = {
    /* {3 4 7} {-4 8} share 4; a clause may come again */
    { 0, 0, 3, 8, 2, { 0, 1 } },
    { 0, 0, 3, 4, 1, { 0 } },
    { 0, 0, 3, 7, 3, { 0, 1, 0 } },
    { 0, 0, 3, 8, 4, { 0, 0, 1, 1 } },
    { 0, 0, 6, 9, 1, { 2 } },
    { 0, 0, 6, 9, 2, { 2, 3 } },
    /* the first has not x, the last has not y */
    { 24, 0, 3, 8, 1, { 1 } },
    { 24, 0, 3, 8, 1, { 0 } },
    { 24, 0, 3, 8, 2, { 2, 1 } },
    { 24, 1, 3, 8, 2, { 0, 0 } },
    { 24, 2, 3, 8, 3, { 0, 1, 0 } },
    /* no clause at all */
    { 24, 0, 3, 8, 0, { 0 } },
    /* {3 4 7} {5 9} share nothing, and fail at the second; what comes after does not matter */
    { 24, 1, 3, 8, 3, { 0, 3, 1 } },
    { 24, 1, 3, 8, 4, { 0, 3, 5, 2 } },
    /* {5 9} {1 5} share 5, which is not deeper than 6, but is deeper than 3 */
    { 24, 2, 6, 9, 4, { 2, 3, 4, 3 } },
    /* {3 8 -8} has both, and is always true, in front, behind and between */
    { 24, 0, 3, 8, 1, { 5 } },
    { 24, 0, 3, 8, 2, { 5, 1 } },
    { 24, 2, 3, 8, 3, { 0, 1, 5 } },
    { 24, 2, 3, 8, 4, { 0, 1, 5, 1 } },
    /* 13 before 24: x, y, and any number of the path */
    { 13, 0, 4, 8, 2, { 0, 1 } },
    { 13, 0, 0, 8, 2, { 0, 1 } },
    { 13, 0, 10, 8, 2, { 0, 1 } },
    { 13, 0, 0xFFFFFFFF, 8, 0, { 0 } },
    { 13, 0, 3, 1, 2, { 0, 1 } },
    { 13, 0, 3, 6, 2, { 0, 1 } },
    { 13, 0, 3, 0, 1, { 1 } },
    { 13, 0, 3, 10, 0, { 0 } },
    { 13, 0, 6, 5, 2, { 2, 3 } },
    { 13, 0, 3, 8, 1, { 6 } },
    { 13, 0, 3, 8, 3, { 1, 3, 6 } },
    { 13, 0, 3, 8, 2, { 0, 0xFFFFFFFF } },
    { 13, 0, 3, 8, 2, { 0x10000, 1 } },
};

static void by_hand(const struct formula *f)
{
    size_t k;

    for (k = 0; k < LEN(samples); k++) {
        const struct sample *s = &samples[k];

        about("path", (unsigned)k);
        expect_refused(call_path(f, s->x, s->y, s->path, s->length), s->number, s->place, "path");
        expect_verdict(judge_path(f, s->x, s->y, s->path, s->length), call_path(f, s->x, s->y, s->path, s->length), "the judge");
    }
}

/* A as it stands by both rules, and over more lines, which is refused where it is not joined. */
static void by_both_rules(void)
{
    struct formula f = with_true_clause();
    uint32_t path[] = { 0, 1 };

    by_hand(&f);
    reading_rule = SNOW_JOINED;
    by_hand(&f);
    f.prefix = spread;
    f.prefix_len = LEN(spread);
    by_hand(&f);
    reading_rule = SNOW_PLAIN;
    about("spread, as it stands", 0);
    expect_refused(call_path(&f, 3, 8, path, 2), 9, 1, "path");
}

/* Paths that go to and fro between {6 9} and {5 9}, longer than 16 bits can count. */
static void long_paths(void)
{
    enum { LONG = 140001 };
    static uint32_t path[LONG];
    static const uint32_t wrong[] = { 1, 65535, 65536, 65537, 131072, LONG - 1 };
    size_t i;

    about("long path", 0);
    for (i = 0; i < LONG; i++)
        path[i] = i % 2 == 0 ? 2 : 3;
    expect_accepted(call_path(&formula_a, 6, 9, path, LONG), "a long path");
    expect_accepted(call_path(&formula_a, 6, 9, path, LONG - 1), "a long path");
    for (i = 0; i < LEN(wrong); i++) {
        uint32_t kept = path[wrong[i]];

        about("long path, wrong at", wrong[i]);
        path[wrong[i]] = 1;
        expect_refused(call_path(&formula_a, 6, 9, path, LONG), 24, wrong[i], "a long path that fails");
        path[wrong[i]] = 5;
        expect_refused(call_path(&formula_a, 6, 9, path, LONG), 13, 0, "a long path with a number too large");
        path[wrong[i]] = kept;
    }
}

/* As many clauses as a table can hold: the last numbers are those of {1 2} and of an empty clause. */
static void many_clauses(void)
{
    static const uint32_t prefix[] = { 2, 1, 0, 1, 2, 0 };
    static int32_t table[SNOW_MOST_CLAUSES];
    struct formula f = { 2, prefix, LEN(prefix), table, SNOW_MOST_CLAUSES };
    uint32_t count = SNOW_MOST_CLAUSES - 2, path[2];

    about("as many clauses as a table holds", 0);
    table[SNOW_MOST_CLAUSES - 4] = 1;
    table[SNOW_MOST_CLAUSES - 3] = -2;
    path[0] = path[1] = count - 2;
    expect_accepted(call_path(&f, 1, 2, path, 1), "the last but one");
    expect_accepted(call_path(&f, 1, 2, path, 2), "the same twice");
    path[1] = count - 1;
    expect_refused(call_path(&f, 1, 2, path, 2), 24, 1, "the last");
    path[1] = count;
    expect_refused(call_path(&f, 1, 2, path, 2), 13, 0, "one more");
    memset(table, 0, sizeof table);
    path[0] = SNOW_MOST_CLAUSES - 1;
    expect_refused(call_path(&f, 1, 2, path, 1), 24, 0, "only empty clauses");
    path[0] = SNOW_MOST_CLAUSES;
    expect_refused(call_path(&f, 1, 2, path, 1), 13, 0, "one more than all");
}

/* How many paths were accepted, and refused as 24 behind their first entry. */
static uint32_t accepted_seen, later_seen;

static void compare_path(const struct formula *f, const struct world *w, uint32_t x, uint32_t y, const uint32_t *path, size_t length)
{
    struct verdict v = call_path(f, x, y, path, length);

    expect_verdict(v, judge_path(f, x, y, path, length), "path");
    if (v.number == 0)
        agree(search_in_set(w, SNOW_STANDARD, x, y), "an accepted pair is in the standard set");
    accepted_seen += v.number == 0 && length > 1;
    later_seen += v.number == 24 && v.place > 0;
}

/* A path with one entry drawn anew, one left out, one put twice, or some more drawn behind it. */
static size_t damage(const struct formula *f, uint32_t *path, size_t length)
{
    uint32_t count = judge_clause_count(f);
    size_t at = length == 0 ? 0 : draw((uint32_t)length), i;

    switch (draw(4)) {
    case 0:
        if (length > 0)
            path[at] = draw(count + 1);
        return length;
    case 1:
        for (i = at; i + 1 < length; i++)
            path[i] = path[i + 1];
        return length == 0 ? 0 : length - 1;
    case 2:
        for (i = length; i > at; i--)
            path[i] = path[i - 1];
        return length == 0 ? 0 : length + 1;
    default:
        path[length] = draw(count + 1);
        return length + 1;
    }
}

/* Every pair: in the set exactly if it has a path, which is then short, accepted, and damaged. */
static void compare_pairs(const struct formula *f)
{
    static struct world w;
    uint32_t path[SEARCHED_CLAUSES + 8], x, y, times;
    size_t length;

    search_variables(&w, f);
    search_clauses(&w, f);
    search_close(&w);
    for (x = 0; x <= f->n + 1; x++) {
        for (y = 0; y <= f->n + 1; y++) {
            if (!judge_universal(f, x) || !judge_deeper(f, x, y)) {
                if (y % 3 == x % 3)
                    expect_refused(call_path(f, x, y, path, 0), 13, 0, "path");
                continue;
            }
            length = search_path(f, x, y, path);
            agree((length > 0) == search_in_set(&w, SNOW_STANDARD, x, y), "a pair is in the standard set exactly if it has a path");
            agree(length <= search_existentials(&w), "the path is no longer than the number of existentials");
            compare_path(f, &w, x, y, path, length);
            for (times = 0; times < 4; times++) {
                length = damage(f, path, length);
                compare_path(f, &w, x, y, path, length);
            }
        }
    }
}

/* Formulas drawn for one rule: joined ones have their blocks spread over more, most of them. */
static void drawn_paths(uint32_t rule)
{
    enum { ROUNDS = 200 };
    static struct drawn d;
    uint32_t round, path[1] = { 0 };

    reading_rule = rule;
    accepted_seen = later_seen = 0;
    for (round = 0; round < ROUNDS; round++) {
        about("formula", round);
        draw_formula(&d);
        if (round % 2 == 0)
            draw_signs(&d);
        if (rule == SNOW_JOINED && round % 7 != 0)
            draw_spread(&d);
        if (round % 5 == 0)
            damage_formula(&d);
        if (judge_formula(&d.f).number != 0)
            expect_verdict(call_path(&d.f, 1, 2, path, 1), judge_formula(&d.f), "path, formula refused");
        else if (judge_clause_count(&d.f) <= SEARCHED_CLAUSES && d.f.n <= SMALL)
            compare_pairs(&d.f);
    }
    about("accepted paths of more than one clause", accepted_seen);
    agree(accepted_seen > 300, "accepted paths of more than one clause were seen");
    about("paths that fail behind their first entry", later_seen);
    agree(later_seen > 300, "paths that fail behind their first entry were seen");
    reading_rule = SNOW_PLAIN;
}

void test_path_check(void)
{
    group("paths, by hand");
    by_both_rules();
    many_clauses();
    group("long paths");
    long_paths();
    group("random paths, against the slow search");
    drawn_paths(SNOW_PLAIN);
    group("random paths, with joined prefixes");
    drawn_paths(SNOW_JOINED);
}

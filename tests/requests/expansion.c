/*
 * Expanding a universal, under both reading rules: the formula without it
 * against one that is made step by step (rule 12.2, rule 12.3), from the slow
 * search; the number of its literals against the count from the input
 * (rule 12.4); and on small formulas its truth against that of the formula,
 * both tried out (rule 12.5).
 */
#include <string.h>

#include "comparisons.h"
#include "conformance.h"
#include "expect.h"
#include "generator.h"
#include "judge_tables.h"
#include "search.h"
#include "search_expansion.h"
#include "truth.h"

enum { ROUNDS = 500, TRUTHS = 400, MOST_TRIED = 7 };

/* What expanding must give, and what it gives. */
static const struct made *expected;
static uint32_t out_prefix[MADE_PREFIX];
static int32_t out_clauses[MADE_CLAUSES];

static struct expanded tables(size_t prefix_len, size_t clauses_len)
{
    struct expanded t = { 0, out_prefix, prefix_len, 0, out_clauses, clauses_len, 0 };

    return t;
}

/* The result as it was written, and that check accepts it under either rule. */
static void compare_result(const struct expanded *t)
{
    struct formula result = { t->n, out_prefix, t->prefix_count, out_clauses, t->clauses_count };
    uint32_t rule = reading_rule;

    agree(t->n == expected->n && t->prefix_count == expected->prefix_len && t->clauses_count == expected->clauses_len, "n and the counts");
    agree(memcmp(out_prefix, expected->prefix, expected->prefix_len * sizeof *out_prefix) == 0, "the blocks");
    agree(memcmp(out_clauses, expected->clauses, expected->clauses_len * sizeof *out_clauses) == 0, "the clauses");
    for (reading_rule = SNOW_PLAIN; reading_rule <= SNOW_JOINED; reading_rule++)
        expect_accepted(call_check(&result), "check of the result");
    reading_rule = rule;
}

/* Expands x of an accepted formula; 1 where that is accepted. */
static int compare_expansion(const struct formula *f, uint32_t x)
{
    struct expanded t;
    size_t k, literals = 0;

    if (!judge_universal(f, x)) {
        t = tables(0, 0);
        expect_refused(call_expand(f, x, &t), 13, 0, "expand");
        return 0;
    }
    expected = search_expansion(f, x);
    t = tables(expected->prefix_len + draw(3), expected->clauses_len + draw(3));
    expect_accepted(call_expand(f, x, &t), "expand");
    compare_result(&t);
    for (k = 0; k < expected->clauses_len; k++)
        literals += expected->clauses[k] != 0;
    agree(literals == search_literal_total(f, x), "as many literals as the input says");
    if (expected->prefix_len > 0) {
        t = tables(expected->prefix_len - 1, expected->clauses_len);
        expect_refused(call_expand(f, x, &t), 14, 0, "expand");
    }
    if (expected->clauses_len > 0) {
        t = tables(expected->prefix_len, expected->clauses_len - 1);
        expect_refused(call_expand(f, x, &t), 14, 0, "expand");
    }
    return 1;
}

/* Expands every universal of a small formula, or is refused as check is. */
static void compare_formula(const struct formula *f)
{
    struct verdict v = judge_formula(f);
    struct expanded t = tables(0, 0);
    uint32_t x;

    if (v.number != 0)
        expect_verdict(call_expand(f, 1 + draw(24), &t), v, "expand");
    for (x = 0; v.number == 0 && f->n <= SMALL && x <= f->n + 1; x++)
        compare_expansion(f, x);
}

static uint32_t true_seen, false_seen;

/* Truth, before and after: on formulas of few variables. */
static void compare_truth(const struct formula *f)
{
    uint32_t x;
    int before = is_true(f->prefix, f->prefix_len, f->n, f->clauses, f->clauses_len);

    for (x = 1; x <= f->n; x++) {
        if (!judge_universal(f, x) || !compare_expansion(f, x))
            continue;
        agree(is_true(expected->prefix, expected->prefix_len, expected->n, expected->clauses, expected->clauses_len) == before,
              "the expanded formula is true if the formula is");
        true_seen += (uint32_t)before;
        false_seen += (uint32_t)!before;
    }
}

/* Formula A with 3 expanded, by hand. */
static void expand_a(void)
{
    static const uint32_t result[] = { 1, 1, 2, 4, 10, 5, 0, 2, 6, 0, 1, 7, 11, 8, 12, 9, 0 };
    static const int32_t literals[] = { 4, 7, 0, -4, 8, 0, 6, 9, 0, 5, 9, 0, 1, 5, 0, -10, 12, 0 };
    struct expanded t = tables(LEN(result), LEN(literals));

    expect_accepted(call_expand(&formula_a, 3, &t), "expand");
    agree(t.n == 12 && t.prefix_count == LEN(result) && t.clauses_count == LEN(literals), "n and the counts");
    expect_rows(out_prefix, result, LEN(result), "the blocks");
    agree(memcmp(out_clauses, literals, sizeof literals) == 0, "the clauses");
    expect_refused(call_expand(&formula_a, 4, &t), 13, 0, "expand, 4 is existential");
    expect_refused(call_expand(&formula_a, 10, &t), 13, 0, "expand, 10 is over n");
    expect_refused(call_expand(&formula_a, 0, &t), 13, 0, "expand, 0 is no variable");
    reading_rule = 3;
    expect_refused(call_expand(&formula_a, 4, &t), 23, 0, "expand, no rule");
    reading_rule = SNOW_PLAIN;
}

/* A universal and so many existentials that depend on it, one clause with all of them, and clauses with one of them: how that is expanded. */
static void limits(uint32_t n, uint32_t members, size_t repeats, uint32_t number)
{
    static uint32_t prefix[SNOW_MOST_VARIABLES + 8], more_prefix[SNOW_MOST_VARIABLES + 8];
    static int32_t clauses[SNOW_MOST_CLAUSES], more_clauses[SNOW_MOST_CLAUSES];
    struct formula f = { n, prefix, 0, clauses, 0 };
    struct expanded t = { 0, more_prefix, LEN(more_prefix), 0, more_clauses, LEN(more_clauses), 0 };
    uint32_t v;
    size_t k;

    about("variables", n);
    prefix[f.prefix_len++] = 2;
    prefix[f.prefix_len++] = 1;
    prefix[f.prefix_len++] = 0;
    prefix[f.prefix_len++] = 1;
    for (v = 1; v <= members; v++)
        prefix[f.prefix_len++] = v + 1;
    prefix[f.prefix_len++] = 0;
    for (v = 0; v <= members; v++)
        clauses[f.clauses_len++] = (int32_t)v + 1;
    clauses[f.clauses_len++] = 0;
    for (k = 0; k < repeats; k++) {
        clauses[f.clauses_len++] = 2;
        clauses[f.clauses_len++] = 0;
    }
    if (number == 0)
        expect_accepted(call_expand(&f, 1, &t), "expand");
    else
        expect_refused(call_expand(&f, 1, &t), number, 0, "expand");
    t.prefix_len = 0;
    expect_refused(call_expand(&f, 1, &t), number == 0 ? 14 : number, 0, "expand, before 14");
}

/* Random formulas under the rule that is asked for, as drawn and damaged. */
static void random_formulas(void)
{
    static struct drawn d;
    uint32_t round;

    for (round = 0; round < ROUNDS; round++) {
        about("formula", round);
        draw_formula(&d);
        draw_signs(&d);
        if (reading_rule == SNOW_JOINED)
            draw_spread(&d);
        compare_formula(&d.f);
        if (d.f.n > 0) {
            damage_formula(&d);
            compare_formula(&d.f);
        }
    }
}

static void put_clause(struct drawn *d, int32_t a, int32_t b)
{
    d->clauses[d->f.clauses_len++] = a;
    d->clauses[d->f.clauses_len++] = b;
    d->clauses[d->f.clauses_len++] = 0;
}

/*
 * Clauses of two literals, some of which make an existential say what a
 * universal over it is, or is not: without its copy such a formula is false.
 */
static void tie_clauses(struct drawn *d, uint32_t n)
{
    uint32_t x, y, count;

    d->f.clauses = d->clauses;
    d->f.clauses_len = 0;
    for (x = 1; x <= n; x++) {
        int32_t literal = draw(2) ? (int32_t)x : -(int32_t)x;

        y = 1 + draw(n);
        if (judge_universal(&d->f, x) && judge_existential(&d->f, y) && judge_block(&d->f, y) > judge_block(&d->f, x)) {
            put_clause(d, literal, (int32_t)y);
            put_clause(d, -literal, -(int32_t)y);
        }
    }
    for (count = draw(2 + n / 2); count > 0; count--)
        put_clause(d, draw_literal(n), draw_literal(n));
}

/* Formulas of few variables, with their truth. */
static void small_formulas(void)
{
    static struct drawn d;
    uint32_t round;

    for (round = 0; round < TRUTHS; round++) {
        uint32_t n = 2 + draw(MOST_TRIED - 1);

        about("formula", round);
        d.f.n = n;
        draw_prefix(&d, n, 1 + draw(n));
        if (draw(4) == 0)
            draw_clauses(&d, n, 1 + draw(n), 3);
        else
            tie_clauses(&d, n);
        if (reading_rule == SNOW_JOINED)
            draw_spread(&d);
        compare_truth(&d.f);
    }
}

void test_expansion(void)
{
    group("formula A expanded");
    for (reading_rule = SNOW_JOINED; reading_rule >= SNOW_PLAIN; reading_rule--)
        compare_formula(&formula_a);
    reading_rule = SNOW_PLAIN;
    expand_a();
    group("random formulas expanded");
    random_formulas();
    reading_rule = SNOW_JOINED;
    random_formulas();
    reading_rule = SNOW_PLAIN;
    group("small formulas, truth before and after");
    small_formulas();
    reading_rule = SNOW_JOINED;
    small_formulas();
    reading_rule = SNOW_PLAIN;
    about("true and false formulas", true_seen);
    agree(true_seen > 100 && false_seen > 100, "both true and false formulas were seen");
    group("expanding up to the limits");
    limits(2049, 2047, 0, 0);
    limits(2050, 2047, 0, 1);
    limits(4095, 1, 0, 0);
    limits(4096, 1, 0, 1);
    limits(104, 103, 4070, 0);
    limits(105, 104, 4070, 2);
}

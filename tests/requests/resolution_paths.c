/*
 * Resolution-path sets: by hand, refused, at the limit, and of random
 * formulas, against a walk that is written from rule 14.1 and rule 14.2.
 */
#include <string.h>

#include "comparisons.h"
#include "conformance.h"
#include "expect.h"
#include "generator.h"
#include "judge_tables.h"
#include "search_resolution.h"

enum { PATH_ROUNDS = 500 };  /* random formulas of each kind */

/* How many sets were seen that are not empty and shorter than the strict one. */
static uint32_t shorter_seen;

/* The set lies within the strict set of the formula's own forest. */
static void within_strict(const struct formula *f, const struct forest *rows, uint32_t x, const uint32_t *list, uint32_t length)
{
    uint32_t strict[SMALL], count = 0, k, at = 0, within = 0;

    memset(strict, 0x5A, sizeof strict);
    expect_accepted(call_set_by(SNOW_STRICT, f, rows, x, strict, SMALL, &count), "strict set");
    for (k = 0; k < length; k++) {
        while (at < count && strict[at] != list[k])
            at++;
        within += at < count;
    }
    agree(within == length, "the set lies within the strict one");
    shorter_seen += length > 0 && length < count;
}

/* The set of x, and what the call says where it is refused. */
static void compare_set(const struct formula *f, const struct forest *rows, uint32_t x)
{
    uint32_t list[SMALL], got[SMALL + 4], count = 0, length;

    memset(got, 0x5A, sizeof got);
    if (!judge_universal(f, x)) {
        expect_refused(call_resolution_set(f, x, got, draw(2) ? SMALL : 0, &count), 13, 0, "no universal");
        return;
    }
    length = search_resolution_set(f, x, list);
    expect_accepted(call_resolution_set(f, x, got, length + draw(4), &count), "resolution-path set");
    agree(count == length && memcmp(got, list, length * sizeof *list) == 0, "the set is the walked one");
    if (length > 0)
        expect_refused(call_resolution_set(f, x, got, length - 1, &count), 14, 0, "one row too few");
    within_strict(f, rows, x, list, length);
}

static void compare_formula(const struct formula *f)
{
    static struct tables t;
    struct forest rows = rows_for(f->n <= SMALL ? f->n : 0, &t);
    struct verdict judged = judge_formula(f);
    uint32_t x, count = 0, out[4] = { 0 };

    if (judged.number != 0) {
        expect_verdict(call_resolution_set(f, 1, out, 4, &count), judged, "a formula that is refused");
        return;
    }
    if (f->n > SMALL)
        return;
    expect_accepted(call_build(f, &rows, &count), "build");
    for (x = 0; x <= f->n + 1; x++)
        compare_set(f, &rows, x);
}

/* Many short clauses, so that walks go on, and universals in both signs. */
static void draw_walked(struct drawn *d)
{
    uint32_t n = 1 + draw(18), blocks = 1 + draw(n < 5 ? n : 5);

    d->f.n = n;
    draw_prefix(d, n, blocks);
    draw_clauses(d, n, n + draw(2 * n), 2 + draw(2));
    draw_signs(d);
}

static void drawn_sets(uint32_t rule)
{
    static struct drawn d;
    uint32_t round;

    reading_rule = rule;
    for (round = 0; round < 3 * PATH_ROUNDS; round++) {
        about("formula", round);
        draw_walked(&d);
        if (rule == SNOW_JOINED && round % 4 != 0)
            draw_spread(&d);
        if (round % 3 == 2)
            damage_formula(&d);
        compare_formula(&d.f);
    }
    reading_rule = SNOW_PLAIN;
}

/* a 1, e 2 3 4: 4 is an end of paths from 1 and from -1, but in one sign. */
static const uint32_t small_prefix[] = { 2, 1, 0, 1, 2, 3, 4, 0 }, small_spread[] = { 1, 0, 2, 1, 0, 2, 0, 1, 2, 0, 1, 3, 4, 0 };
static const int32_t small_clauses[] = { 1, 2, 0, -2, 3, 0, -1, -3, 0, -1, 4, 0, 1, 4, 0 };
static const struct formula small = { 4, small_prefix, LEN(small_prefix), small_clauses, LEN(small_clauses) };

static void by_hand(void)
{
    static const uint32_t set[] = { 2, 3 };
    struct formula f = small;
    uint32_t out[4] = { 0 }, count = 0, rule;

    for (rule = SNOW_PLAIN; rule <= SNOW_JOINED; rule++) {
        about("rule", rule);
        reading_rule = rule;
        expect_accepted(call_resolution_set(&f, 1, out, 2, &count), "the set of 1");
        agree(count == 2, "its count");
        expect_rows(out, set, 2, "its members");
    }
    f.prefix = small_spread;
    f.prefix_len = LEN(small_spread);
    expect_accepted(call_resolution_set(&f, 1, out, 4, &count), "the set of 1, spread");
    agree(count == 2, "its count");
    expect_rows(out, set, 2, "its members");
    reading_rule = SNOW_PLAIN;
    expect_refused(call_resolution_set(&f, 1, out, 4, &count), 9, 1, "plain");
}

/* Each refusal, and which of two comes first. */
static void refusals(void)
{
    static const int32_t bad[] = { 1, 2, 0, 5, 0 }, open[] = { 1, 2, 0, -2 };
    struct formula f = small;
    uint32_t out[4] = { 0 }, count = 0;

    reading_rule = 3;
    f.n = SNOW_MOST_VARIABLES + 1;
    expect_refused(call_resolution_set(&f, 2, out, 0, &count), 23, 0, "23 before 1");
    reading_rule = SNOW_PLAIN;
    expect_refused(call_resolution_set(&f, 2, out, 0, &count), 1, 0, "1 before 13");
    f = small;
    f.prefix_len--;
    expect_refused(call_resolution_set(&f, 2, out, 0, &count), 3, 7, "3 before 13");
    f = small;
    f.clauses = bad;
    f.clauses_len = LEN(bad);
    expect_refused(call_resolution_set(&f, 2, out, 0, &count), 10, 3, "10 before 13");
    f.clauses = open;
    f.clauses_len = LEN(open);
    expect_refused(call_resolution_set(&f, 1, out, 4, &count), 11, 4, "11");
    expect_refused(call_resolution_set(&small, 2, out, 0, &count), 13, 0, "13 before 14");
    expect_refused(call_resolution_set(&small, 0, out, 4, &count), 13, 0, "0");
    expect_refused(call_resolution_set(&small, 5, out, 4, &count), 13, 0, "a number past n");
    expect_refused(call_resolution_set(&small, 1, out, 1, &count), 14, 0, "14");
    expect_refused(call_resolution_set(&small, 1, NULL, 0, &count), 14, 0, "14, no table");
}

/* 27 on both sides of its limit, after 13 and before 14. */
static void limit(void)
{
    struct formula f = small;
    uint32_t out[4] = { 0 }, count = 0;

    f.n = SNOW_MOST_PATH_VARIABLES;
    expect_accepted(call_resolution_set(&f, 1, out, 2, &count), "n 512");
    agree(count == 2, "the variables that no clause has add nothing");
    for (f.n = SNOW_MOST_PATH_VARIABLES + 1; f.n <= SNOW_MOST_VARIABLES; f.n += SNOW_MOST_VARIABLES - SNOW_MOST_PATH_VARIABLES - 1) {
        about("variables", f.n);
        expect_refused(call_resolution_set(&f, 1, out, 4, &count), 27, 0, "27");
        expect_refused(call_resolution_set(&f, 1, out, 0, &count), 27, 0, "27 before 14");
        expect_refused(call_resolution_set(&f, 2, out, 4, &count), 13, 0, "13 before 27");
    }
}

/* The longest walk: a 1, e 2 to 512, clauses that make each equal to the next, and a path from 1 through all of them in one sign and then in the other. */
static void longest_walk(int last)
{
    enum { N = SNOW_MOST_PATH_VARIABLES };
    static uint32_t prefix[N + 4], out[N];
    static int32_t clauses[6 * N + 9];
    struct formula f = { N, prefix, 0, clauses, 0 };
    const int32_t turn[] = { -N, -2, 0 }, ends[] = { 1, 2, 0, -1, 2, 0 };
    uint32_t v, count = 0, right = 0;

    prefix[f.prefix_len++] = 2;
    prefix[f.prefix_len++] = 1;
    prefix[f.prefix_len++] = 0;
    prefix[f.prefix_len++] = 1;
    for (v = 2; v <= N; v++)
        prefix[f.prefix_len++] = v;
    prefix[f.prefix_len++] = 0;
    memcpy(clauses, ends, sizeof ends);
    f.clauses_len = LEN(ends);
    if (!last) {
        memcpy(clauses + f.clauses_len, turn, sizeof turn);
        f.clauses_len += LEN(turn);
    }
    for (v = 2; v < N; v++) {
        const int32_t a = (int32_t)v, equal[] = { -a, a + 1, 0, a, -a - 1, 0 };

        memcpy(clauses + f.clauses_len, equal, sizeof equal);
        f.clauses_len += LEN(equal);
    }
    if (last) {
        memcpy(clauses + f.clauses_len, turn, sizeof turn);
        f.clauses_len += LEN(turn);
    }
    expect_accepted(call_resolution_set(&f, 1, out, N - 1, &count), "the longest walk");
    agree(count == N - 1, "its count");
    for (v = 2; v <= N; v++)
        right += out[v - 2] == v;
    agree(right == N - 1, "every existential depends on 1");
}

void test_resolution_paths(void)
{
    group("resolution-path sets, by hand and refused");
    by_hand();
    refusals();
    limit();
    longest_walk(0);
    longest_walk(1);
    group("resolution-path sets of random formulas, against a walk by the rule's words");
    drawn_sets(SNOW_PLAIN);
    group("resolution-path sets of random formulas with joined prefixes");
    drawn_sets(SNOW_JOINED);
    about("shorter sets", shorter_seen);
    agree(shorter_seen > 200, "sets that are not empty and shorter than the strict ones were seen");
}

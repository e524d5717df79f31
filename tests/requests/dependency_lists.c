/*
 * Dependency lists: check with lists and the set by lists, by hand and on
 * random formulas, against a judge and a slow search that are written from the
 * definitions.
 */
#include <string.h>

#include "comparisons.h"
#include "conformance.h"
#include "expect.h"
#include "generator.h"
#include "judge_lists.h"
#include "judge_tables.h"
#include "list_calls.h"
#include "search.h"
#include "search_lists.h"

enum {
    ROUNDS = 300,      /* random formulas with lists, by each rule */
    MOST_N = 20        /* their variables */
};

static struct world world;

/* How many sets were seen that are not empty, and how many of them are strict ones. */
static uint32_t sets_seen, strict_seen;

/* The schemes that are asked for: both, and a number that is drawn. */
enum { ASKED = 3 };

static const struct scheme *asked(uint32_t k)
{
    static const struct scheme both[] = { { SNOW_STANDARD, SNOW_STANDARD }, { SNOW_STRICT, SNOW_STRICT } };

    return k < LEN(both) ? &both[k] : &schemes[draw(SCHEMES)];
}

static void compare_set(const struct formula *f, const struct lists *d, const struct scheme *by, uint32_t x)
{
    uint32_t list[SMALL], got[SMALL + 4], count = 0, length;

    memset(got, 0x5A, sizeof got);
    if (x < 1 || x > f->n || !judge_universal(f, x)) {
        expect_refused(call_listed_set_by(by->number, f, d, x, got, 0, &count), 13, 0, "set by lists");
        return;
    }
    length = search_listed_set(&world, f, d, by->means, x, list);
    expect_accepted(call_listed_set_by(by->number, f, d, x, got, length + draw(4), &count), "set by lists");
    agree(count == length && memcmp(got, list, length * sizeof *list) == 0, "the set is the searched one");
    if (length > 0)
        expect_refused(call_listed_set_by(by->number, f, d, x, got, length - 1, &count), 14, 0, "set by lists");
    sets_seen += length > 0;
    strict_seen += by->means == SNOW_STRICT && length > 0;
}

/* Both calls on a formula with lists, which may be damaged; no set of one that has too many variables to be searched. */
static void compare(const struct formula *f, const struct lists *d)
{
    struct verdict judged = judge_lists(f, d);
    uint32_t x, k, count = 0;

    expect_verdict(call_check_lists(f, d), judged, "check with lists");
    if (judged.number != 0) {
        expect_verdict(call_listed_set_by(SNOW_STRICT, f, d, 1, NULL, 0, &count), judged, "set by lists");
        return;
    }
    if (f->n > SMALL)
        return;
    search_variables(&world, f);
    search_clauses(&world, f);
    for (x = 0; x <= f->n + 1; x++)
        for (k = 0; k < ASKED; k++)
            compare_set(f, d, asked(k), x);
}

/* Where no list is lent, the sets are those of the forest. */
static void compare_forest(const struct formula *f)
{
    static const struct lists none = { NULL, 0 };
    static struct tables tables;
    struct forest rows = rows_for(f->n, &tables);
    uint32_t x, count = 0, k, one[SMALL], other[SMALL], length = 0;

    expect_accepted(call_build(f, &rows, &count), "build");
    for (x = 1; x <= f->n; x++) {
        for (k = 0; k < ASKED && judge_universal(f, x); k++) {
            uint32_t number = asked(k)->number;

            expect_accepted(call_set_by(number, f, &rows, x, one, SMALL, &count), "set by the forest");
            expect_accepted(call_listed_set_by(number, f, &none, x, other, SMALL, &length), "set by no lists");
            agree(count == length && memcmp(one, other, count * sizeof *one) == 0, "both are one");
        }
    }
}

/* Takes about a third of its variables out of a drawn prefix, so that they are free; no block gets empty. */
static void set_free(struct drawn *d)
{
    size_t e, at = 0, begin = 0;

    for (e = 0; e < d->f.prefix_len; e++) {
        int mark = e == 0 || d->prefix[e - 1] == 0;
        uint32_t entry = d->prefix[e];

        if (mark)
            begin = at;
        /* the last of its block stays where no other has */
        if (!mark && entry != 0 && draw(3) == 0 && (at > begin + 1 || d->prefix[e + 1] != 0))
            continue;
        d->prefix[at++] = entry;
    }
    d->f.prefix_len = at;
}

static uint32_t list_entries[ROOM];

/* Lists for some of the free variables, each with some of the universals. */
static struct lists draw_lists(const struct formula *f)
{
    struct lists d = { list_entries, 0 };
    uint32_t y, k, from;

    for (k = 1; k <= f->n; k++) {
        y = draw(2) ? k : f->n + 1 - k;
        if (judge_in_block(f, y) || draw(5) == 0)
            continue;
        for (from = 0; from < d.length; from++)
            if (judge_opens_list(&d, from) && list_entries[from] == y)
                break;
        if (from < d.length)
            continue;
        list_entries[d.length++] = y;
        from = draw(f->n);
        for (y = 1; y <= f->n; y++)
            if (judge_universal(f, (y + from) % f->n + 1) && draw(3) != 0)
                list_entries[d.length++] = (y + from) % f->n + 1;
        list_entries[d.length++] = 0;
    }
    return d;
}

/* Changes one entry, takes one out, puts one in, or cuts a tail off. */
static void damage_lists(const struct formula *f, struct lists *d)
{
    size_t at = draw((uint32_t)d->length + 1);
    uint32_t entry = draw(f->n + 3);

    switch (draw(4)) {
    case 0:
        if (at < d->length)
            list_entries[at] = entry;
        break;
    case 1:
        if (at < d->length) {
            memmove(list_entries + at, list_entries + at + 1, (d->length - at - 1) * sizeof *list_entries);
            d->length--;
        }
        break;
    case 2:
        memmove(list_entries + at + 1, list_entries + at, (d->length - at) * sizeof *list_entries);
        list_entries[at] = entry;
        d->length++;
        break;
    default:
        d->length = at;
    }
}

/* A formula with many free variables, so that lists can be drawn for some of them. */
static void draw_with_free(struct drawn *d)
{
    uint32_t n = 1 + draw(MOST_N), blocks = draw((n < 5 ? n : 5) + 1);

    d->f.n = n;
    draw_prefix(d, n, blocks);
    set_free(d);
    draw_clauses(d, n, draw(2 * n + 1), 4);
    draw_signs(d);
}

static void drawn_formulas(uint32_t rule)
{
    static struct drawn d;
    struct lists lists;
    uint32_t round;

    reading_rule = rule;
    for (round = 0; round < ROUNDS; round++) {
        about("formula with lists", round);
        draw_with_free(&d);
        if (rule == SNOW_JOINED && round % 4 != 0)
            draw_spread(&d);
        lists = draw_lists(&d.f);
        compare(&d.f, &lists);
        if (round % 4 == 0)
            compare_forest(&d.f);
        damage_lists(&d.f, &lists);
        compare(&d.f, &lists);
        if (round % 3 == 0)
            damage_formula(&d);
        compare(&d.f, &lists);
    }
    reading_rule = SNOW_PLAIN;
}

/* By hand: a 1 2, e 5, the lists of 3 and 4, clauses {1 3} {3 4} {-1 5} {4 5} {2 4}. */
static const uint32_t hand_prefix[] = { 2, 1, 2, 0, 1, 5, 0 };
static const int32_t hand_clauses[] = { 1, 3, 0, 3, 4, 0, -1, 5, 0, 4, 5, 0, 2, 4, 0 };
static const struct formula hand_formula = { 6, hand_prefix, LEN(hand_prefix), hand_clauses, LEN(hand_clauses) };

struct hand_case {
    uint32_t lists[8];
    size_t length;
    struct verdict said;
    uint32_t set[4], count;        /* of 1, by the standard scheme */
    uint32_t strict[4], fewer;     /* and by the strict one */
};

static void by_hand(void)
{
    static const struct hand_case cases[] = {
        { { 0 }, 0, { 0, 0 }, { 5 }, 1, { 0 }, 0 },                                     /* no list: 3 and 4 are free */
        { { 3, 1, 0 }, 3, { 0, 0 }, { 3, 5 }, 2, { 0 }, 0 },                            /* 4 may not be stepped on */
        { { 3, 1, 0, 4, 2, 0 }, 6, { 0, 0 }, { 3, 5 }, 2, { 0 }, 0 },
        { { 3, 1, 0, 4, 2, 1, 0 }, 7, { 0, 0 }, { 3, 4, 5 }, 3, { 3, 4, 5 }, 3 },
        { { 4, 1, 0, 3, 0 }, 5, { 0, 0 }, { 4, 5 }, 2, { 0 }, 0 },                      /* an empty list */
        { { 0, 3, 0 }, 3, { 25, 0 }, { 0 }, 0, { 0 }, 0 },                              /* 25: y is 0 */
        { { 3, 0, 0 }, 3, { 25, 2 }, { 0 }, 0, { 0 }, 0 },
        { { 7, 1, 0 }, 3, { 25, 0 }, { 0 }, 0, { 0 }, 0 },                              /* over n */
        { { 1, 2, 0 }, 3, { 25, 0 }, { 0 }, 0, { 0 }, 0 },                              /* a universal */
        { { 3, 0, 5, 0 }, 4, { 25, 2 }, { 0 }, 0, { 0 }, 0 },                           /* in a block */
        { { 3, 0, 4, 0, 3, 0 }, 6, { 25, 4 }, { 0 }, 0, { 0 }, 0 },                     /* a second list */
        { { 3, 4, 0 }, 3, { 26, 1 }, { 0 }, 0, { 0 }, 0 },                              /* 26: x is free */
        { { 3, 5, 0 }, 3, { 26, 1 }, { 0 }, 0, { 0 }, 0 },                              /* existential */
        { { 3, 1, 9, 0 }, 4, { 26, 2 }, { 0 }, 0, { 0 }, 0 },                           /* over n */
        { { 3, 1, 2, 1, 0 }, 5, { 26, 3 }, { 0 }, 0, { 0 }, 0 },                        /* twice */
        { { 3, 1, 0, 4, 1, 1 }, 6, { 26, 5 }, { 0 }, 0, { 0 }, 0 },                     /* before 11 */
        { { 3 }, 1, { 11, 1 }, { 0 }, 0, { 0 }, 0 },                                    /* 11: no 0 */
        { { 3, 1, 0, 4, 1 }, 5, { 11, 5 }, { 0 }, 0, { 0 }, 0 },
    };
    size_t k;

    for (k = 0; k < LEN(cases); k++) {
        const struct hand_case *h = &cases[k];
        struct lists d = { h->lists, h->length };
        uint32_t got[4] = { 0 }, count = 0;

        about("lists", (unsigned)k);
        compare(&hand_formula, &d);
        expect_verdict(call_check_lists(&hand_formula, &d), h->said, "check with lists");
        expect_verdict(call_listed_set_by(SNOW_STANDARD, &hand_formula, &d, 1, got, 4, &count), h->said, "set by lists");
        agree(count == h->count, "its count");
        expect_rows(got, h->set, h->count, "the standard set");
        count = 0;
        expect_verdict(call_listed_set_by(SNOW_STRICT, &hand_formula, &d, 1, got, 4, &count), h->said, "set by lists");
        agree(count == h->fewer, "its count");
        expect_rows(got, h->strict, h->fewer, "the strict set");
    }
}

/* The order of refusals: rule, n, lengths, prefix, clauses, lists, x, room. */
static void order_of_refusals(void)
{
    static uint32_t long_lists[SNOW_MOST_LISTS + 1];
    static const uint32_t bad_prefix[] = { 3 };
    static const int32_t bad_clauses[] = { 9, 0 };
    struct formula f = hand_formula;
    struct lists d = { long_lists, SNOW_MOST_LISTS + 1 };
    uint32_t got[4] = { 0 }, count = 0;

    reading_rule = 3;
    f.n = 4097;
    expect_refused(call_check_lists(&f, &d), 23, 0, "the rule first");
    reading_rule = SNOW_PLAIN;
    expect_refused(call_check_lists(&f, &d), 1, 0, "then n");
    f.n = 6;
    f.prefix = bad_prefix;
    f.prefix_len = LEN(bad_prefix);
    f.clauses = bad_clauses;
    f.clauses_len = LEN(bad_clauses);
    expect_refused(call_check_lists(&f, &d), 2, 0, "then the lengths");
    expect_refused(call_listed_set_by(SNOW_STRICT, &f, &d, 3, got, 0, &count), 2, 0, "of the set too");
    d.length = SNOW_MOST_LISTS;
    expect_refused(call_check_lists(&f, &d), 4, 0, "then the prefix");
    f.prefix = hand_prefix;
    f.prefix_len = LEN(hand_prefix);
    expect_refused(call_check_lists(&f, &d), 10, 0, "then the clauses");
    f.clauses = hand_clauses;
    f.clauses_len = LEN(hand_clauses);
    expect_refused(call_check_lists(&f, &d), 25, 0, "then the lists");
    expect_refused(call_listed_set_by(SNOW_STRICT, &f, &d, 3, got, 0, &count), 25, 0, "of the set too");
    d.length = 0;
    expect_refused(call_listed_set_by(SNOW_STANDARD, &f, &d, 3, got, 0, &count), 13, 0, "then x");
    expect_refused(call_listed_set_by(SNOW_STANDARD, &f, &d, 1, got, 0, &count), 14, 0, "then the room");
}

/* As many entries as a table of lists may have: eight lists of 2,046 universals each. */
static void longest_table(void)
{
    static uint32_t prefix[2048], entries[SNOW_MOST_LISTS + 1], got[8];
    static int32_t clauses[15];
    struct formula f = { 2054, prefix, LEN(prefix), clauses, LEN(clauses) };
    struct lists d = { entries, 0 };
    uint32_t v, y, count = 0;

    prefix[0] = 2;
    for (v = 1; v <= 2046; v++)
        prefix[v] = v;
    for (y = 0; y < 8; y++) {
        entries[d.length++] = 2047 + y;
        for (v = 1; v <= 2046; v++)
            entries[d.length++] = 2047 - v;
        entries[d.length++] = 0;
    }
    /* a path from 5 through all of them, back to front: {5 2054} {2054 2053} .. */
    clauses[0] = 5;
    clauses[1] = 2054;
    for (y = 0; y < 4; y++) {
        clauses[3 * y + 3] = (int32_t)(2054 - y);
        clauses[3 * y + 4] = (int32_t)(2053 - y);
    }
    expect_accepted(call_check_lists(&f, &d), "as many entries as there may be");
    expect_accepted(call_listed_set_by(SNOW_STANDARD, &f, &d, 5, got, 8, &count), "the set");
    agree(count == 5 && got[0] == 2050 && got[4] == 2054, "what the path passes");
    expect_accepted(call_listed_set_by(SNOW_STRICT, &f, &d, 5, got, 8, &count), "the strict set");
    agree(count == 0, "nothing by one sign");
    entries[d.length - 1] = 1;
    expect_refused(call_check_lists(&f, &d), 26, SNOW_MOST_LISTS - 1, "1 comes twice");
    d.length--;
    expect_refused(call_check_lists(&f, &d), 11, SNOW_MOST_LISTS - 1, "the end is inside a list");
    d.length += 2;
    expect_refused(call_check_lists(&f, &d), 2, 0, "one entry more");
}

void test_dependency_lists(void)
{
    group("dependency lists, by hand");
    by_hand();
    about("the order", 0);
    order_of_refusals();
    about("the limit", 0);
    longest_table();
    group("random dependency lists, against the slow search");
    drawn_formulas(SNOW_PLAIN);
    group("random dependency lists with joined prefixes");
    drawn_formulas(SNOW_JOINED);
    about("sets that are not empty", sets_seen);
    agree(sets_seen > 2000 && strict_seen > 200, "sets that are not empty were seen, strict ones too");
}

/*
 * Random formulas, forests and texts. Each is drawn within the rules and
 * then, every other time, damaged; what every call must say of it comes from
 * the judge and the slow search.
 */
#include <stdio.h>
#include <string.h>

#include "build_and_add.h"
#include "comparisons.h"
#include "conformance.h"
#include "expect.h"
#include "generator.h"
#include "judge_path.h"
#include "judge_tables.h"
#include "judge_text.h"
#include "search.h"
#include "shapes_seen.h"

enum {
    ROUNDS = 600,      /* random formulas */
    LADDERS = 6,       /* of 64 blocks */
    DAMAGES = 4,       /* forests that are damaged, of each formula */
    TEXTS = 1500       /* damaged texts */
};

static struct verdict verdict(uint32_t number)
{
    struct verdict v = { number, 0 };

    return v;
}

/* The first of two verdicts that refuses. */
static struct verdict first(struct verdict a, struct verdict b)
{
    return a.number != 0 ? a : b;
}

static struct world world;
static struct tables own_tables, other_tables;

/* Clause: its place by counting zeros. */
static void compare_clauses(const struct formula *f)
{
    struct verdict judged = judge_clauses(f);
    uint32_t k, count = judge_clause_count(f), start, length;
    size_t at = 0, end;

    for (k = 0; k <= count; k++) {
        start = length = 0xFFFFFFFF;
        expect_verdict(call_clause(f, k, &start, &length), first(judged, verdict(k < count ? 0 : 13)), "clause");
        if (judged.number != 0)
            return;
        for (end = at; k < count && f->clauses[end] != 0; end++)
            continue;
        agree(k == count || (start == at && length == end - at), "where the clause stands");
        at = end + 1;
    }
}

/* The text of an accepted formula, as the C library spells numbers; gives its length. */
static size_t spell(const struct formula *f, char *text, size_t room)
{
    size_t at, e;

    at = (size_t)snprintf(text, room, "p cnf %lu %lu\n", (unsigned long)f->n, (unsigned long)judge_clause_count(f));
    for (e = 0; e < f->prefix_len; e++) {
        if (e == 0 || f->prefix[e - 1] == 0)
            at += (size_t)snprintf(text + at, room - at, "%c", f->prefix[e] == 1 ? 'e' : 'a');
        else
            at += (size_t)snprintf(text + at, room - at, " %lu%s", (unsigned long)f->prefix[e], f->prefix[e] == 0 ? "\n" : "");
    }
    for (e = 0; e < f->clauses_len; e++)
        at += (size_t)snprintf(text + at, room - at, "%s%ld%s", e == 0 || f->clauses[e - 1] == 0 ? "" : " ", (long)f->clauses[e],
                               f->clauses[e] == 0 ? "\n" : "");
    return at;
}

/* Write, and read back. */
static void compare_text(const struct formula *f)
{
    static uint8_t text[16384];
    static char spelt[sizeof text];
    static uint32_t prefix[ROOM];
    static int32_t clauses[ROOM];
    static struct reading r;
    struct verdict judged = judge_formula(f);
    uint32_t count = 0, n = 0, prefix_count = 0, clauses_count = 0;

    expect_verdict(call_write(f, text, sizeof text, &count), judged, "write");
    if (judged.number != 0)
        return;
    agree(judge_text(text, count, &r).number == 0 && r.n == f->n && r.prefix_count == f->prefix_len
          && r.clauses_count == f->clauses_len && memcmp(r.prefix, f->prefix, f->prefix_len * sizeof *prefix) == 0
          && memcmp(r.clauses, f->clauses, f->clauses_len * sizeof *clauses) == 0, "the text says the formula");
    agree(spell(f, spelt, sizeof spelt) == count && memcmp(text, spelt, count) == 0, "the text byte by byte");
    expect_accepted(call_read(text, count, &n, prefix, ROOM, &prefix_count, clauses, ROOM, &clauses_count), "read");
    agree(n == f->n && prefix_count == f->prefix_len && clauses_count == f->clauses_len
          && memcmp(prefix, f->prefix, f->prefix_len * sizeof *prefix) == 0
          && memcmp(clauses, f->clauses, f->clauses_len * sizeof *clauses) == 0, "read gives the formula back");
    if (count > 0)
        expect_refused(call_write(f, text, count - 1, &count), 14, 0, "write to one byte less");
}

/* Entry points by the definition for the formula's own forest; a second time by the tables, which may be any. */
static void compare_entry(const struct formula *f, const struct forest *rows, int own, uint32_t x, uint32_t y)
{
    uint32_t entry = 0, rises = 0, passed, expected;
    int fits = judge_universal(f, x) && search_deeper(&world, x, y);

    expect_verdict(call_entry_point(f, rows, x, y, &entry, &rises), verdict(fits ? 0 : 13), "entry point");
    if (!fits)
        return;
    expected = search_lent_entry(&world, rows, x, y, &passed);
    agree(entry == expected && rises == passed, "the entry point and its rises, by the tables");
    agree(rises <= world.block[y], "no more rises than the block number");
    if (!own)
        return;
    expected = search_entry(&world, x, y, &passed);
    agree(entry == expected && rises == passed, "the entry point and its rises, by the search");
}

/* What x's entry points or its set must be by a scheme, ascending. */
static uint32_t expected_list(const struct forest *rows, int own, int of_set, enum snow_scheme scheme, uint32_t x, uint32_t *list)
{
    uint32_t v, count = 0;

    for (v = 1; v <= world.n; v++) {
        int in = !of_set ? search_lent_entry_point(&world, rows, scheme, x, v)
               : own ? search_in_set(&world, scheme, x, v)
               : search_lent_in_set(&world, rows, scheme, x, v);
        if (in)
            list[count++] = v;
    }
    return count;
}

static void compare_list(const struct formula *f, const struct forest *rows, int own, int of_set, const struct scheme *by, uint32_t x)
{
    uint32_t list[SMALL], got[SMALL + 4], count = 0, size = 0, length;
    const char *what = of_set ? "set" : "entry points";

    memset(got, 0x5A, sizeof got);
    if (!judge_universal(f, x)) {
        expect_refused(ask_list(f, rows, of_set, by, x, got, SMALL, &count), 13, 0, what);
        expect_refused(ask_size(f, rows, by, x, &size), 13, 0, "size");
        return;
    }
    length = expected_list(rows, own, of_set, by == NULL ? SNOW_STRICT : by->means, x, list);
    expect_accepted(ask_list(f, rows, of_set, by, x, got, length + draw(4), &count), what);
    agree(count == length && memcmp(got, list, length * sizeof *list) == 0, "the list is the searched one");
    if (length > 0)
        expect_refused(ask_list(f, rows, of_set, by, x, got, length - 1, &count), 14, 0, what);
    if (!of_set)
        return;
    expect_accepted(ask_size(f, rows, by, x, &size), "size");
    agree(size == length, "the size is the length of the searched set");
}

/* Whether clauses that are not always true have x in both signs. */
static int both_signs(const struct formula *f, uint32_t x)
{
    int positive = 0, negative = 0;
    uint32_t k = 0;
    size_t e;

    for (e = 0; e < f->clauses_len; e++) {
        if (f->clauses[e] == 0)
            k++;
        else if (f->clauses[e] == (int32_t)x && !judge_always_true(f, k))
            positive = 1;
        else if (f->clauses[e] == -(int32_t)x && !judge_always_true(f, k))
            negative = 1;
    }
    return positive && negative;
}

static const struct scheme standard = { SNOW_STANDARD, SNOW_STANDARD }, strict = { SNOW_STRICT, SNOW_STRICT };

/* What the universal x has by the strict scheme it has by the standard one; and nothing where it has one sign only. */
static void compare_strict(const struct formula *f, const struct forest *rows, int of_set, uint32_t x)
{
    uint32_t all[SMALL] = { 0 }, some[SMALL] = { 0 }, count = 0, fewer = 0, k, at = 0, within = 0;

    ask_list(f, rows, of_set, &standard, x, all, SMALL, &count);
    ask_list(f, rows, of_set, &strict, x, some, SMALL, &fewer);
    for (k = 0; k < fewer; k++) {
        while (at < count && all[at] != some[k])
            at++;
        within += at < count;
    }
    agree(within == fewer, "the strict list lies within the standard one");
    agree(fewer == 0 || both_signs(f, x), "it is empty where x has one sign only");
    if (fewer > 0 && fewer < count)
        saw(SAW_SHORTER);
}

/* Every list of x: by the calls that name no scheme, which mean the strict one, by each scheme, and by a scheme number that is drawn. */
static void compare_lists(const struct formula *f, const struct forest *rows, int own, uint32_t x)
{
    const struct scheme *drawn = &schemes[draw(SCHEMES)];
    int of_set;

    for (of_set = 0; of_set <= 1; of_set++) {
        compare_list(f, rows, own, of_set, NULL, x);
        compare_list(f, rows, own, of_set, &standard, x);
        compare_list(f, rows, own, of_set, &strict, x);
        compare_list(f, rows, own, of_set, drawn, x);
        if (judge_universal(f, x))
            compare_strict(f, rows, of_set, x);
    }
}

/* Asks for all sets, by a scheme number or, where by is NULL, by the call that names none. */
static struct verdict ask_sets(const struct formula *f, const struct forest *rows, const struct scheme *by, uint32_t *got, size_t room, uint32_t *count)
{
    return by == NULL ? call_sets(f, rows, got, room, count) : call_sets_by(by->number, f, rows, got, room, count);
}

/* All sets are the searched ones, one after the other; by the call that names no scheme they are the strict ones. */
static void compare_sets(const struct formula *f, const struct forest *rows, int own, const struct scheme *by)
{
    static uint32_t list[SMALL * (SMALL + 2)], got[SMALL * (SMALL + 2) + 4];
    uint32_t x, length = 0, count = 0;

    for (x = 1; x <= f->n; x++) {
        if (!judge_universal(f, x))
            continue;
        list[length] = x;
        list[length + 1] = expected_list(rows, own, 1, by == NULL ? SNOW_STRICT : by->means, x, list + length + 2);
        length += 2 + list[length + 1];
    }
    memset(got, 0x5A, sizeof got);
    expect_accepted(ask_sets(f, rows, by, got, draw(2) ? length + draw(4) : f->n * (f->n + 2), &count), "all sets");
    agree(count == length && memcmp(got, list, length * sizeof *list) == 0, "all sets are the searched ones");
    if (length > 0)
        expect_refused(ask_sets(f, rows, by, got, length - 1, &count), 14, 0, "all sets");
}

/* Every question about every variable, and two numbers past them. */
static void compare_answers(const struct formula *f, const struct forest *rows, int own)
{
    uint32_t x, y, k;

    for (x = 0; x <= f->n + 1; x++) {
        compare_lists(f, rows, own, x);
        for (y = 0; y <= f->n + 1; y++)
            if (own || judge_universal(f, x) || y == x)
                compare_entry(f, rows, own, x, y);
    }
    compare_sets(f, rows, own, NULL);
    for (k = 0; k < SCHEMES; k++)
        compare_sets(f, rows, own, &schemes[k]);
}

/* The calls on a damaged forest: the judge's 12, or what the tables as lent say if they are well formed still. */
static void compare_damaged_forest(const struct formula *f, struct forest *rows)
{
    struct verdict judged;
    uint32_t x = 1 + draw(f->n), y = 1 + draw(f->n), count, size, entry, rises, out[SMALL];

    damage_forest(f, rows);
    if (draw(3) == 0)
        damage_forest(f, rows);
    judged = judge_forest(f, rows);
    saw(judged.number == 0 ? SAW_FOREST_CHANGED : SAW_FOREST_WRONG);
    if (judged.number == 0) {
        compare_answers(f, rows, 0);
        draw_tally(f, rows);
        compare_add(f, rows);
        return;
    }
    memset(out, 0x5A, sizeof out);
    expect_verdict(call_size(f, rows, x, &size), judged, "size, bad forest");
    expect_verdict(call_entry_point(f, rows, x, y, &entry, &rises), judged, "entry point, bad forest");
    expect_verdict(call_entry_points(f, rows, x, out, SMALL, &count), judged, "entry points, bad forest");
    expect_verdict(call_set(f, rows, x, out, SMALL, &count), judged, "set, bad forest");
    expect_by(f, rows, x, 9, judged, "by a scheme, bad forest");
    expect_sets(f, rows, out, SMALL, judged, "all sets, bad forest");
    expect_verdict(call_add(f, rows, NULL, 0), judged, "add, bad forest");
}

/* A formula that is refused: every call says so. */
static void compare_refused(const struct formula *f)
{
    struct forest rows = rows_for(draw(SMALL), &own_tables);
    struct verdict all = judge_formula(f), prefix = judge_prefix(f);
    uint32_t out[4], count, size, entry, rises;

    memset(out, 0x5A, sizeof out);
    memset(&own_tables, 0x5A, sizeof own_tables);
    expect_verdict(call_build(f, &rows, &count), all, "build");
    expect_verdict(call_entry_points(f, &rows, 1, out, 4, &count), all, "entry points");
    expect_verdict(call_set(f, &rows, 1, out, 4, &count), all, "set");
    expect_verdict(call_size(f, &rows, 1, &size), all, "size");
    expect_by(f, &rows, 1, 4, all, "by a scheme");
    expect_sets(f, &rows, out, 4, all, "all sets");
    if (prefix.number == 0)
        return;
    expect_verdict(call_entry_point(f, &rows, 1, 2, &entry, &rises), prefix, "entry point");
    expect_verdict(call_add(f, &rows, f->clauses, f->clauses_len), judge_added(f, f->clauses, f->clauses_len), "add");
}

/* A formula that is accepted, and not too large for the search. */
static void compare_accepted(const struct formula *f)
{
    struct forest own, rows;
    uint32_t times;

    saw_formula(f);
    own = compare_build(f, &world, &own_tables);
    compare_answers(f, &own, 1);
    compare_in_turn(f, &own);
    compare_near_tallies(f, &own);
    compare_adds(f, &world, &own);
    /* the search goes back to the formula's own clauses */
    search_variables(&world, f);
    search_clauses(&world, f);
    search_close(&world);
    /* by rows of other clauses than those lent: with the added ones, and then any rows that are well formed */
    compare_answers(f, &own, 0);
    rows = draw_forest(f, &other_tables);
    compare_answers(f, &rows, 0);
    compare_add(f, &rows);
    rows = draw_forest(f, &other_tables);
    compare_damaged_tally(f, &rows);
    for (times = 0; f->n > 0 && times < DAMAGES; times++) {
        rows = times % 2 == 0 ? draw_forest(f, &other_tables) : copy_forest(f, &own, &other_tables);
        compare_damaged_forest(f, &rows);
    }
}

static void compare(const struct formula *f)
{
    expect_verdict(call_check(f), judge_formula(f), "check");
    compare_clauses(f);
    compare_text(f);
    if (judge_formula(f).number != 0)
        compare_refused(f);
    else if (f->n <= SMALL)
        compare_accepted(f);
}

/* Read, on a damaged text. */
static void compare_read(uint8_t *text, size_t length)
{
    static struct reading r;
    static uint32_t prefix[ROOM];
    static int32_t clauses[ROOM];
    uint32_t n = 0, prefix_count = 0, clauses_count = 0;
    struct verdict judged = judge_text(text, length, &r);

    expect_verdict(call_read(text, length, &n, prefix, ROOM, &prefix_count, clauses, ROOM, &clauses_count), judged, "read");
    if (judged.number != 0)
        return;
    agree(n == r.n && prefix_count == r.prefix_count && clauses_count == r.clauses_count
          && memcmp(prefix, r.prefix, prefix_count * sizeof *prefix) == 0
          && memcmp(clauses, r.clauses, clauses_count * sizeof *clauses) == 0, "what the text says");
}

static void texts(void)
{
    static struct drawn d;
    static uint8_t text[8192];
    uint32_t round, count, times;

    for (round = 0; round < TEXTS; round++) {
        size_t length;

        about("text", round);
        draw_formula(&d);
        if (call_write(&d.f, text, sizeof text, &count).number != 0)
            continue;
        length = count;
        for (times = 1 + draw(3); times > 0 && length > 0; times--)
            length = damage_text(text, length, sizeof text);
        compare_read(text, length);
    }
}

/* Prefixes that are joined: spread over more blocks, as they are, and damaged; against the same search. */
static void joined_prefixes(void)
{
    static struct drawn d;
    uint32_t round;

    reading_rule = SNOW_JOINED;
    group("random formulas with joined prefixes");
    for (round = 0; round < ROUNDS; round++) {
        about("formula", round);
        draw_formula(&d);
        draw_signs(&d);
        if (round % 4 != 0)
            draw_spread(&d);
        compare(&d.f);
    }
    group("random formulas with joined prefixes, damaged");
    for (round = 0; round < 2 * ROUNDS; round++) {
        about("formula", round);
        draw_formula(&d);
        draw_spread(&d);
        damage_formula(&d);
        compare(&d.f);
    }
    group("ladders of 64 blocks with joined prefixes");
    for (round = 0; round < LADDERS; round++) {
        about("ladder", round);
        d.f.n = SMALL;
        draw_prefix(&d, SMALL, SNOW_MOST_BLOCKS);
        draw_spread(&d);
        draw_clauses(&d, SMALL, 20 + 10 * round, 3);
        compare(&d.f);
    }
    reading_rule = SNOW_PLAIN;
}

void test_random_formulas(void)
{
    static struct drawn d;
    uint32_t round;

    group("random formulas, against the slow search");
    for (round = 0; round < ROUNDS; round++) {
        about("formula", round);
        draw_formula(&d);
        compare(&d.f);
    }
    group("random formulas, universals in both signs");
    for (round = 0; round < ROUNDS; round++) {
        about("formula", round);
        draw_formula(&d);
        draw_signs(&d);
        compare(&d.f);
    }
    group("random formulas, damaged");
    for (round = 0; round < 4 * ROUNDS; round++) {
        about("formula", round);
        draw_formula(&d);
        damage_formula(&d);
        if (draw(3) == 0)
            damage_formula(&d);
        compare(&d.f);
    }
    group("ladders of 64 blocks, against the slow search");
    for (round = 0; round < LADDERS; round++) {
        about("ladder", round);
        d.f.n = SMALL;
        draw_prefix(&d, SMALL, SNOW_MOST_BLOCKS);
        draw_clauses(&d, SMALL, 20 + 10 * round, 3);
        compare(&d.f);
    }
    joined_prefixes();
    group("what was drawn");
    compare_shapes_seen();
    group("random texts, damaged");
    texts();
}

/* Each refusal of each call, with its place, expected by hand (rule 8.1, rule 8.2). */
#include <string.h>

#include "comparisons.h"
#include "conformance.h"
#include "expect.h"

/* What is wrong with a formula, and so which calls meet it. */
enum fault { IN_COUNT, IN_PREFIX, IN_CLAUSES };

/* The calls that take a prefix and no clauses. */
static void prefix_calls(const struct formula *f, uint32_t number, uint32_t place)
{
    static const int32_t clause[] = { 1, -2 };
    struct forest w = forest_a();
    uint32_t entry, rises;

    expect_refused(call_entry_point(f, &w, 3, 8, &entry, &rises), number, place, "entry point");
    expect_refused(call_entry_point(f, &w, 0, 0, &entry, &rises), number, place, "entry point, before 13");
    expect_refused(call_add(f, &w, clause, 2), number, place, "add");
    w.tally.classes = 0;
    expect_refused(call_add(f, &w, clause, 2), number, place, "add, before 18");
    w.classes_len = 0;
    expect_refused(call_entry_point(f, &w, 3, 8, &entry, &rises), number, place, "entry point, before 12");
    expect_refused(call_add(f, &w, clause, 2), number, place, "add, before 12");
}

/* The calls that take both. */
static void formula_calls(const struct formula *f, uint32_t number, uint32_t place)
{
    struct forest w = forest_a();
    uint32_t out[9] = { 0 }, path[] = { 0, 0xFFFFFFFF }, count, size;
    uint8_t text[256] = { 0 };

    expect_refused(call_check(f), number, place, "check");
    expect_refused(call_build(f, &w, &count), number, place, "build");
    expect_refused(call_entry_points(f, &w, 3, out, 9, &count), number, place, "entry points");
    expect_refused(call_set(f, &w, 3, out, 9, &count), number, place, "set");
    expect_refused(call_size(f, &w, 3, &size), number, place, "size");
    expect_refused_by(f, &w, 3, 9, number, place, "by a scheme");
    expect_sets_refused(f, &w, out, 9, number, place, "all sets");
    expect_refused(call_path(f, 3, 4, path, 1), number, place, "path");
    expect_refused(call_path(f, 0, 0, path, 2), number, place, "path, before 13");
    expect_refused(call_path(f, 3, 8, path, 0), number, place, "path, before 24");
    expect_refused(call_write(f, text, sizeof text, &count), number, place, "write");
    expect_refused(call_write(f, text, 0, &count), number, place, "write, before 14");
    w.parents_len = 0;
    expect_refused(call_build(f, &w, &count), number, place, "build, before 14");
    expect_refused(call_entry_points(f, &w, 1, out, 0, &count), number, place, "entry points, before 12");
    expect_refused(call_set(f, &w, 1, out, 0, &count), number, place, "set, before 12");
    expect_refused(call_size(f, &w, 1, &size), number, place, "size, before 12");
    expect_refused_by(f, &w, 1, 0, number, place, "by a scheme, before 12");
    expect_sets_refused(f, &w, out, 0, number, place, "all sets, before 12");
}

/* Every call that meets the fault refuses so; a call that does not take the faulty table passes over it. */
static void all_refuse(const struct formula *f, enum fault where, uint32_t number, uint32_t place)
{
    struct forest w = forest_a();
    uint32_t entry, rises, start, length;

    formula_calls(f, number, place);
    if (where != IN_CLAUSES)
        prefix_calls(f, number, place);
    else
        expect_accepted(call_entry_point(f, &w, 3, 8, &entry, &rises), "entry point takes no clauses");
    if (where != IN_PREFIX) {
        expect_refused(call_clause(f, 0, &start, &length), number, place, "clause");
        expect_refused(call_clause(f, 0xFFFFFFFF, &start, &length), number, place, "clause, before 13");
    } else {
        expect_accepted(call_clause(f, 0, &start, &length), "clause takes no prefix");
    }
}

/* A with other entries in front of its prefix, or in their place. */
struct bad_prefix {
    uint32_t number, place;
    size_t length;
    uint32_t entries[12];
};

static const struct bad_prefix bad_prefixes[] = {
    { 3, 1, 1, { 1 } },
    { 3, 3, 3, { 1, 1, 2 } },
    { 3, 4, 4, { 1, 1, 0, 2 } },
    { 3, 9, 9, { 1, 1, 2, 0, 2, 3, 0, 1, 4 } },
    { 4, 0, 1, { 0 } },
    { 4, 0, 3, { 3, 1, 0 } },
    { 4, 0, 3, { 0xFFFFFFFF, 1, 0 } },
    { 4, 3, 4, { 1, 1, 0, 0 } },
    { 4, 3, 6, { 1, 1, 0, 4, 2, 0 } },
    { 5, 3, 6, { 1, 1, 0, 1, 2, 0 } },
    { 5, 3, 5, { 2, 1, 0, 2, 2 } },
    { 7, 1, 3, { 1, 10, 0 } },
    { 7, 2, 4, { 1, 9, 0xFFFFFFFF, 0 } },
    { 7, 1, 5, { 1, 10, 10, 0, 3 } },
    { 8, 2, 4, { 1, 1, 1, 0 } },
    { 8, 4, 6, { 1, 1, 0, 2, 1, 0 } },
    { 8, 5, 6, { 1, 1, 0, 2, 9, 9 } },
    { 9, 1, 2, { 1, 0 } },
    { 9, 4, 5, { 2, 1, 0, 1, 0 } },
    { 9, 1, 4, { 1, 0, 1, 10 } },
};

static void prefixes(void)
{
    size_t k;
    struct formula f = formula_a;

    for (k = 0; k < LEN(bad_prefixes); k++) {
        about("bad prefix", (unsigned)k);
        f.prefix = bad_prefixes[k].entries;
        f.prefix_len = bad_prefixes[k].length;
        all_refuse(&f, IN_PREFIX, bad_prefixes[k].number, bad_prefixes[k].place);
    }
}

struct bad_clauses {
    uint32_t number, place;
    size_t length;
    int32_t entries[8];
};

static const struct bad_clauses bad_clause_tables[] = {
    { 10, 0, 2, { 10, 0 } },
    { 10, 0, 2, { -10, 0 } },
    { 10, 3, 5, { 1, 2, 0, 2147483647, 0 } },
    { 10, 1, 3, { 9, -2147483647 - 1, 0 } },
    { 10, 0, 2, { -2147483647 - 1, -2147483647 - 1 } },
    { 10, 1, 2, { 1, 10 } },
    { 11, 1, 1, { 1 } },
    { 11, 5, 5, { 1, 2, 0, 3, -4 } },
    { 11, 3, 3, { 0, 0, -9 } },
};

static void clause_tables(void)
{
    size_t k;
    struct formula f = formula_a;

    for (k = 0; k < LEN(bad_clause_tables); k++) {
        about("bad clause table", (unsigned)k);
        f.clauses = bad_clause_tables[k].entries;
        f.clauses_len = bad_clause_tables[k].length;
        all_refuse(&f, IN_CLAUSES, bad_clause_tables[k].number, bad_clause_tables[k].place);
    }
}

/* Two faults: the prefix comes before the clauses, n before both. */
static void order_of_faults(void)
{
    static const uint32_t prefix[] = { 1, 1, 0, 2, 10, 0 };
    static const int32_t clauses[] = { 10, 0 };
    struct formula f = { 9, prefix, LEN(prefix), clauses, LEN(clauses) };
    uint32_t start, length;

    about("two faults", 0);
    formula_calls(&f, 7, 4);
    prefix_calls(&f, 7, 4);
    expect_refused(call_clause(&f, 0, &start, &length), 10, 0, "clause");
    f.n = 4097;
    all_refuse(&f, IN_COUNT, 1, 0);
    f.n = 0xFFFFFFFF;
    all_refuse(&f, IN_COUNT, 1, 0);
}

/* 10 in an added clause: a literal out of range, and a 0. Both come before 12. */
static void added_clauses(void)
{
    static const int32_t high[] = { 1, -10 }, zero[] = { 7, -9, 0 }, least[] = { -2147483647 - 1 }, fine[] = { 7, -9 };
    struct forest w = forest_a();

    about("added clause", 0);
    expect_refused(call_add(&formula_a, &w, high, 2), 10, 1, "add 1 -10");
    expect_refused(call_add(&formula_a, &w, zero, 3), 10, 2, "add 7 -9 0");
    expect_refused(call_add(&formula_a, &w, least, 1), 10, 0, "add the smallest literal");
    w.classes[4] = 9;
    expect_refused(call_add(&formula_a, &w, zero, 3), 10, 2, "add 7 -9 0, before 12");
    expect_refused(call_add(&formula_a, &w, fine, 2), 12, 5, "add 7 -9");
}

/* Rows of A's forest that are not right: the class row and the parent row that v is given, and the first bad row. */
struct bad_row {
    uint32_t place;
    uint32_t v, class_name, parent;
    uint32_t also, also_class, also_parent;
};

static const struct bad_row bad_rows[] = {
    { 3, 3, 3, 0, 0, 0, 0 },           /* a universal with a class */
    { 6, 6, 0, 1, 0, 0, 0 },           /* a universal with a parent */
    { 1, 1, 2, 0, 0, 0, 0 },           /* a class name over its own number */
    { 2, 2, 0, 0, 0, 0, 0 },           /* an existential with no class */
    { 7, 7, 3, 0, 0, 0, 0 },           /* a class name that is universal */
    { 7, 7, 4, 0, 0, 0, 0 },           /* a class name of another block */
    { 9, 8, 7, 0, 9, 8, 0 },           /* a class name that does not name itself */
    { 9, 9, 10, 0, 0, 0, 0 },          /* a class name over n */
    { 9, 9, 0xFFFFFFFF, 0, 0, 0, 0 },  /* and far over */
    { 8, 8, 7, 4, 0, 0, 0 },           /* a parent of what names no class */
    { 7, 7, 7, 3, 0, 0, 0 },           /* a parent that is universal */
    { 9, 5, 4, 0, 9, 9, 5 },           /* a parent that names no class */
    { 8, 8, 8, 7, 0, 0, 0 },           /* a parent of the same block */
    { 4, 4, 4, 7, 0, 0, 0 },           /* a parent of a deeper block */
    { 8, 8, 8, 8, 0, 0, 0 },           /* a parent of itself */
    { 9, 9, 9, 10, 0, 0, 0 },          /* a parent over n */
    { 7, 7, 7, 0xFFFFFFFF, 0, 0, 0 },  /* and far over */
    { 3, 3, 1, 0, 7, 3, 0 },           /* two bad rows: the first */
};

static void refused_rows(struct forest *w, uint32_t place)
{
    static const int32_t clause[] = { 7, -9 };
    uint32_t out[9] = { 0 }, count, size, entry, rises;

    expect_refused(call_entry_point(&formula_a, w, 3, 8, &entry, &rises), 12, place, "entry point");
    expect_refused(call_entry_point(&formula_a, w, 8, 3, &entry, &rises), 12, place, "entry point, before 13");
    expect_refused(call_entry_points(&formula_a, w, 3, out, 9, &count), 12, place, "entry points");
    expect_refused(call_entry_points(&formula_a, w, 4, out, 0, &count), 12, place, "entry points, before 13");
    expect_refused(call_set(&formula_a, w, 3, out, 9, &count), 12, place, "set");
    expect_refused(call_set(&formula_a, w, 4, out, 0, &count), 12, place, "set, before 13");
    expect_refused(call_size(&formula_a, w, 3, &size), 12, place, "size");
    expect_refused(call_size(&formula_a, w, 4, &size), 12, place, "size, before 13");
    expect_refused_by(&formula_a, w, 3, 9, 12, place, "by a scheme");
    expect_refused_by(&formula_a, w, 4, 0, 12, place, "by a scheme, before 13");
    expect_sets_refused(&formula_a, w, out, 9, 12, place, "all sets");
    expect_sets_refused(&formula_a, w, out, 0, 12, place, "all sets, before 14");
    expect_refused(call_add(&formula_a, w, clause, 2), 12, place, "add");
    w->tally.clauses = 0xFFFFFFFF;
    expect_refused(call_add(&formula_a, w, clause, 2), 12, place, "add, before 18");
}

static void set_rows(struct forest *w, uint32_t v, uint32_t class_name, uint32_t parent)
{
    if (v == 0)
        return;
    w->classes[v - 1] = class_name;
    w->parents[v - 1] = parent;
}

static void forests(void)
{
    struct forest w;
    size_t k;

    for (k = 0; k < LEN(bad_rows); k++) {
        const struct bad_row *b = &bad_rows[k];

        about("bad row", (unsigned)k);
        w = forest_a();
        set_rows(&w, b->v, b->class_name, b->parent);
        set_rows(&w, b->also, b->also_class, b->also_parent);
        refused_rows(&w, b->place);
    }
    about("short table", 0);
    w = forest_a();
    w.classes_len = 8;
    refused_rows(&w, 0);
    w = forest_a();
    w.parents_len = 8;
    w.classes[2] = 3;
    refused_rows(&w, 0);
    w = forest_a();
    w.counts_len = 8;
    refused_rows(&w, 0);
    w.classes[2] = 3;
    refused_rows(&w, 0);
    w = forest_a();
    w.classes_len = w.parents_len = w.counts_len = 0;
    refused_rows(&w, 0);
}

/* Each count of A's forest, one too many, one too few, and some that cannot be; and two wrong ones, where the place is that of the first. */
static void counts(void)
{
    static const uint32_t by[] = { 1, 0xFFFFFFFF, 0x80000000, 9 };
    struct forest w;
    uint32_t v, k;

    for (v = 1; v <= 9; v++) {
        about("bad count", v);
        for (k = 0; k < LEN(by); k++) {
            w = forest_a();
            w.counts[v - 1] += by[k];
            refused_rows(&w, v);
        }
        w = forest_a();
        w.counts[v - 1]++;
        w.counts[8]--;
        if (v < 9)
            refused_rows(&w, v);
        /* a bad class or parent comes first, also behind the bad count */
        w = forest_a();
        w.counts[v - 1]++;
        w.classes[8] = 0;
        refused_rows(&w, 9);
        w = forest_a();
        w.counts[v - 1]++;
        w.parents[7] = 7;
        refused_rows(&w, 8);
    }
}

/* A tally that is not A's: everything else is right. */
static void refused_tally(uint32_t taken, uint32_t merges, uint32_t left, const char *what)
{
    static const int32_t joins[] = { 7, -9 }, always_true[] = { 1, -1, 2 }, zero[] = { 7, 0 };
    struct forest w = forest_a();
    uint32_t entry, rises;

    w.tally.clauses = taken;
    w.tally.merges = merges;
    w.tally.classes = left;
    expect_refused(call_add(&formula_a, &w, joins, 2), 18, 0, what);
    expect_refused(call_add(&formula_a, &w, always_true, 3), 18, 0, what);
    expect_refused(call_add(&formula_a, &w, NULL, 0), 18, 0, what);
    expect_refused(call_add(&formula_a, &w, zero, 2), 10, 1, "10 before 18");
    /* no other call takes the tally */
    expect_accepted(call_entry_point(&formula_a, &w, 3, 8, &entry, &rises), "entry point takes no tally");
    w.counts[6] = 2;
    expect_refused(call_add(&formula_a, &w, zero, 1), 12, 7, "12 before 18");
    w.counts_len = 8;
    expect_refused(call_add(&formula_a, &w, zero, 1), 12, 0, "12 before 18");
}

/* 18, by each of its causes, and what is just within. */
static void tallies(void)
{
    static const int32_t clause[] = { 7, -9 };
    struct forest w;

    about("tally", 0);
    refused_tally(65535, 0, 7, "65,535 clauses");
    refused_tally(65536, 0, 7, "65,536 clauses");
    refused_tally(0xFFFFFFFF, 0, 7, "the most clauses");
    refused_tally(5, 1, 6, "a class too few, with the right sum");
    refused_tally(5, 0xFFFFFFFF, 8, "a class too many, with the right sum in 32 bits");
    refused_tally(5, 0, 6, "a class too few");
    refused_tally(5, 0, 8, "a class too many");
    refused_tally(5, 7, 0, "no class");
    refused_tally(5, 1, 7, "a merge too many");
    refused_tally(5, 0xFFFFFFFF, 7, "merges that overflow the sum");
    refused_tally(5, 0x80000000, 0x80000007, "a sum that is right in 32 bits");
    refused_tally(0, 0, 0, "no tally");
    w = forest_a();
    w.tally.clauses = 65534;
    expect_accepted(call_add(&formula_a, &w, clause, 2), "65,534 clauses");
    expect_tally(&w, 65535, 2, 5, "the last clause that is taken");
    expect_refused(call_add(&formula_a, &w, clause, 2), 18, 0, "and no more");
    expect_refused(call_add(&formula_a, &w, clause, 0), 18, 0, "nor an empty one");
    w = forest_a();
    w.tally.clauses = 0;
    expect_accepted(call_add(&formula_a, &w, clause, 2), "clauses that are not A's number");
    expect_tally(&w, 1, 2, 5, "one more");
}

/* 13: no such clause; an x that is not universal; a y that is not existential and deeper. */
static void refused_questions(void)
{
    static const uint32_t not_universal[] = { 0, 1, 2, 4, 9, 10, 4096, 0xFFFFFFFF };
    static const uint32_t not_deeper_than_6[] = { 0, 1, 3, 4, 5, 6, 10, 4097, 0xFFFFFFFF };
    struct forest w = forest_a();
    uint32_t out[9] = { 0 }, count, size, entry, rises, start, length;
    size_t k;

    for (k = 0; k < LEN(not_universal); k++) {
        about("x", not_universal[k]);
        expect_refused(call_set(&formula_a, &w, not_universal[k], out, 9, &count), 13, 0, "set");
        expect_refused(call_set(&formula_a, &w, not_universal[k], out, 0, &count), 13, 0, "set, before 14");
        expect_refused(call_size(&formula_a, &w, not_universal[k], &size), 13, 0, "size");
        expect_refused(call_entry_points(&formula_a, &w, not_universal[k], out, 9, &count), 13, 0, "entry points");
        expect_refused_by(&formula_a, &w, not_universal[k], 9, 13, 0, "by a scheme");
        expect_refused_by(&formula_a, &w, not_universal[k], 0, 13, 0, "by a scheme, before 14");
        expect_refused(call_entry_point(&formula_a, &w, not_universal[k], 8, &entry, &rises), 13, 0, "entry point");
    }
    for (k = 0; k < LEN(not_deeper_than_6); k++) {
        about("y", not_deeper_than_6[k]);
        expect_refused(call_entry_point(&formula_a, &w, 6, not_deeper_than_6[k], &entry, &rises), 13, 0, "entry point");
    }
    about("clause number", 0);
    expect_refused(call_clause(&formula_a, 5, &start, &length), 13, 0, "clause 5");
    expect_refused(call_clause(&formula_a, 0xFFFFFFFF, &start, &length), 13, 0, "the largest clause number");
}

/* 14: one row, entry or byte less than needed. */
static void outputs(void)
{
    static const char text[] = "p cnf 2 1\ne 1 0\na 2 0\n1 -2 0\n";
    struct forest w = forest_a();
    uint32_t out[9] = { 7, 7, 7, 7, 7, 7, 7, 7, 7 }, prefix[6] = { 7 }, count, entries, n, k;
    int32_t table[3] = { 7 };
    uint8_t bytes[128] = { 7 };

    about("short output", 0);
    w.classes_len = 8;
    expect_refused(call_build(&formula_a, &w, &count), 14, 0, "build, classes");
    w = forest_a();
    w.parents_len = 8;
    expect_refused(call_build(&formula_a, &w, &count), 14, 0, "build, parents");
    w = forest_a();
    w.counts_len = 8;
    expect_refused(call_build(&formula_a, &w, &count), 14, 0, "build, counts");
    w = forest_a();
    for (k = 0; k < 3; k++)
        expect_refused(call_set_by(SNOW_STANDARD, &formula_a, &w, 3, out, k, &count), 14, 0, "standard set");
    for (k = 0; k < 8; k++)
        expect_refused(call_sets_by(SNOW_STANDARD, &formula_a, &w, out, k, &count), 14, 0, "all standard sets");
    for (k = 0; k < 4; k++)
        expect_sets_refused(&formula_a, &w, out, k, 14, 0, "all sets");
    expect_refused(call_entry_points_by(SNOW_STANDARD, &formula_a, &w, 3, out, 0, &count), 14, 0, "standard entry points");
    expect_refused(call_write(&formula_a, bytes, 80, &count), 14, 0, "write");
    expect_refused(call_write(&formula_a, bytes, 0, &count), 14, 0, "write to nothing");
    for (k = 0; k < 6; k++)
        expect_refused(call_read((const uint8_t *)text, sizeof text - 1, &n, prefix, k, &count, table, 3, &entries), 14, 0, "read, prefix");
    for (k = 0; k < 3; k++)
        expect_refused(call_read((const uint8_t *)text, sizeof text - 1, &n, prefix, 6, &count, table, k, &entries), 14, 0, "read, clauses");
    expect_accepted(call_read((const uint8_t *)text, sizeof text - 1, &n, prefix, 6, &count, table, 3, &entries), "read");
}

void test_refusals(void)
{
    group("refusals 1 and 3 to 9, every call");
    prefixes();
    group("refusals 10 and 11, every call");
    clause_tables();
    order_of_faults();
    added_clauses();
    group("refusal 12");
    forests();
    counts();
    group("refusal 18");
    tallies();
    group("refusal 13");
    refused_questions();
    group("refusal 14");
    outputs();
}

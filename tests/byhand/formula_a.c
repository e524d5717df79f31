/* Formula A and the worked cases on it, P1 to P10 (rule 17.1); every call accepted, on tables longer than n, exactly n, and empty. */
#include <string.h>

#include "comparisons.h"
#include "conformance.h"
#include "expect.h"

/* P1 and P2: its classes and parents, and its counts and tally, from tables and a tally that held anything. */
static void builds(void)
{
    struct forest a = forest_a(), w;
    uint32_t classes[ROWS], parents[ROWS], counts[ROWS], count = 0;
    uint32_t length;

    about("rows lent", 0);
    for (length = 9; length <= ROWS; length++) {
        about("rows lent", length);
        memset(classes, 0x5A, sizeof classes);
        memset(parents, 0xFF, sizeof parents);
        memset(counts, 0xA5, sizeof counts);
        memset(&w.tally, 0xFF, sizeof w.tally);
        w.classes = classes;
        w.classes_len = length;
        w.parents = parents;
        w.parents_len = ROWS + 9 - length;
        w.counts = counts;
        w.counts_len = length % 2 == 0 ? 9 : length;
        expect_accepted(call_check(&formula_a), "check");
        expect_accepted(call_build(&formula_a, &w, &count), "build");
        agree(count == 9, "build gives n");
        expect_rows(classes, a.classes, 9, "P1 classes");
        expect_rows(parents, a.parents, 9, "P2 parents");
        expect_rows(counts, a.counts, 9, "counts");
        expect_tally(&w, 5, 0, 7, "tally");
    }
}

/* The standard set of x is the list given, and its size the length. */
static void has_set(const struct formula *f, const struct forest *w, uint32_t x, const uint32_t *list, uint32_t length,
                    const char *what)
{
    uint32_t out[9], count = 0, size = 99;

    memset(out, 0x5A, sizeof out);
    expect_accepted(call_size_by(SNOW_STANDARD, f, w, x, &size), what);
    agree(size == length, what);
    expect_accepted(call_set_by(SNOW_STANDARD, f, w, x, out, 9, &count), what);
    agree(count == length, what);
    expect_rows(out, list, length, what);
    /* a table of just that length will do */
    expect_accepted(call_set_by(SNOW_STANDARD, f, w, x, out, length, &count), what);
    expect_rows(out, list, length, what);
}

/* P3 and P4, and the entry points, by the standard scheme. */
static void sets(void)
{
    static const uint32_t set_3[] = { 4, 7, 8 }, set_6[] = { 9 }, all[] = { 3, 3, 4, 7, 8, 6, 1, 9 };
    struct forest w = forest_a();
    uint32_t out[9], every[99], count = 0, length;

    has_set(&formula_a, &w, 3, set_3, 3, "P3 set of 3");
    has_set(&formula_a, &w, 6, set_6, 1, "P4 set of 6");
    expect_accepted(call_entry_points_by(SNOW_STANDARD, &formula_a, &w, 3, out, 9, &count), "entry points of 3");
    agree(count == 1 && out[0] == 4, "entry points of 3");
    expect_accepted(call_entry_points_by(SNOW_STANDARD, &formula_a, &w, 6, out, 1, &count), "entry points of 6");
    agree(count == 1 && out[0] == 9, "entry points of 6");
    memset(every, 0x5A, sizeof every);
    /* a table of just that length, and one that is long enough for any formula with as many variables */
    for (length = 8; length <= 99; length += 91) {
        expect_accepted(call_sets_by(SNOW_STANDARD, &formula_a, &w, every, length, &count), "all sets");
        agree(count == 8, "all sets");
        expect_rows(every, all, 8, "all sets");
    }
}

/* A with one clause more, in a table of its own; or with several, of which all but the last have their 0. */
static struct formula with_clause(const int32_t *clause, size_t length)
{
    static int32_t clauses[32];
    struct formula f = formula_a;

    memcpy(clauses, formula_a.clauses, formula_a.clauses_len * sizeof *clauses);
    memcpy(clauses + formula_a.clauses_len, clause, length * sizeof *clauses);
    clauses[formula_a.clauses_len + length] = 0;
    f.clauses = clauses;
    f.clauses_len = formula_a.clauses_len + length + 1;
    return f;
}

/* What a universal has by a scheme: its entry points and its set. */
struct answer {
    uint32_t entry_count, entries[9];
    uint32_t size, set[9];
};

/* By A's forest, a scheme number, or no number, gives this answer, in tables of just that length; one entry less is too little. */
static void has_by(const struct scheme *by, const struct formula *f, uint32_t x, const struct answer *a, const char *what)
{
    struct forest w = forest_a();
    uint32_t out[9], count = 99, size = 99;

    memset(out, 0x5A, sizeof out);
    expect_accepted(ask_list(f, &w, 0, by, x, out, a->entry_count, &count), what);
    agree(count == a->entry_count, what);
    expect_rows(out, a->entries, a->entry_count, what);
    expect_accepted(ask_list(f, &w, 1, by, x, out, a->size, &count), what);
    agree(count == a->size, what);
    expect_rows(out, a->set, a->size, what);
    expect_accepted(ask_size(f, &w, by, x, &size), what);
    agree(size == a->size, what);
    if (a->entry_count > 0)
        expect_refused(ask_list(f, &w, 0, by, x, out, a->entry_count - 1, &count), 14, 0, what);
    if (a->size > 0)
        expect_refused(ask_list(f, &w, 1, by, x, out, a->size - 1, &count), 14, 0, what);
}

/* By every scheme number x has one of two answers, and by the calls that name none the strict one. */
static void has_either(const struct formula *f, uint32_t x, const struct answer *standard, const struct answer *strict, const char *what)
{
    size_t k;

    for (k = 0; k < LEN(schemes); k++) {
        about("scheme", schemes[k].number);
        has_by(&schemes[k], f, x, schemes[k].means == SNOW_STRICT ? strict : standard, what);
    }
    about("no scheme", 0);
    has_by(NULL, f, x, strict, what);
}

/* Both schemes on A, where 3 and 6 have one sign only, and on A with clauses that leave its forest as it is. */
static void by_schemes(void)
{
    static const int32_t both[] = { -3, 8 }, apart[] = { -3, 5 }, some[] = { 3, 5, 0, -3, 8 }, always_true[] = { 3, -3, 8 };
    static const struct answer none = { 0, { 0 }, 0, { 0 } }, four = { 1, { 4 }, 3, { 4, 7, 8 } }, nine = { 1, { 9 }, 1, { 9 } };
    static const struct answer four_five = { 2, { 4, 5 }, 5, { 4, 5, 7, 8, 9 } };
    struct formula f;

    has_either(&formula_a, 3, &four, &none, "3 in one sign only");
    has_either(&formula_a, 6, &nine, &none, "6 in one sign only");
    f = with_clause(both, 2);
    has_either(&f, 3, &four, &four, "both signs have the entry point");
    f = with_clause(apart, 2);
    has_either(&f, 3, &four_five, &none, "each sign has an entry point of its own");
    f = with_clause(some, 5);
    has_either(&f, 3, &four_five, &four, "both signs have one entry point of two");
    f = with_clause(always_true, 3);
    has_either(&f, 3, &four, &none, "an always-true clause has 3 in neither sign");
}

/* All sets of f by A's forest, by every scheme number and by the call that names none, which means the strict scheme. */
static void all_sets(const struct formula *f, const uint32_t *standard, uint32_t standard_length, const uint32_t *strict, uint32_t strict_length,
                     const char *what)
{
    struct forest w = forest_a();
    uint32_t out[16], count = 99;
    size_t k;

    memset(out, 0x5A, sizeof out);
    expect_accepted(call_sets(f, &w, out, strict_length, &count), what);
    agree(count == strict_length, what);
    expect_rows(out, strict, strict_length, what);
    expect_refused(call_sets(f, &w, out, strict_length - 1, &count), 14, 0, what);
    for (k = 0; k < LEN(schemes); k++) {
        int is_strict = schemes[k].means == SNOW_STRICT;
        uint32_t length = is_strict ? strict_length : standard_length;

        about("scheme", schemes[k].number);
        expect_accepted(call_sets_by(schemes[k].number, f, &w, out, length, &count), what);
        agree(count == length, what);
        expect_rows(out, is_strict ? strict : standard, length, what);
        expect_refused(call_sets_by(schemes[k].number, f, &w, out, length - 1, &count), 14, 0, what);
    }
}

static void all_by_schemes(void)
{
    static const int32_t both[] = { -3, 8 }, some[] = { 3, 5, 0, -3, 8 };
    static const uint32_t own[] = { 3, 3, 4, 7, 8, 6, 1, 9 }, none[] = { 3, 0, 6, 0 }, four[] = { 3, 3, 4, 7, 8, 6, 0 };
    static const uint32_t more[] = { 3, 5, 4, 5, 7, 8, 9, 6, 1, 9 };
    struct formula f;

    all_sets(&formula_a, own, LEN(own), none, LEN(none), "all sets, 3 and 6 in one sign only");
    f = with_clause(both, 2);
    all_sets(&f, own, LEN(own), four, LEN(four), "all sets, 3 in both signs");
    f = with_clause(some, 5);
    all_sets(&f, more, LEN(more), four, LEN(four), "all sets, both signs of 3 have one entry point of two");
}

/* A forest of nine rows, with the merges and classes of its tally. */
struct nine {
    uint32_t classes[9], parents[9], counts[9];
    uint32_t merges, left;
};

static void is_forest(const struct forest *w, const struct nine *rows, const char *what)
{
    expect_rows(w->classes, rows->classes, 9, what);
    expect_rows(w->parents, rows->parents, 9, what);
    expect_rows(w->counts, rows->counts, 9, what);
    expect_tally(w, 6, rows->merges, rows->left, what);
}

/* Adds a clause to A's forest; the rows and the tally become those given, and build gives the same of A with the clause. */
static void adds(const int32_t *clause, size_t length, const struct nine *rows, struct forest *w, const char *what)
{
    struct formula f = with_clause(clause, length);
    uint32_t count;

    *w = forest_a();
    expect_accepted(call_add(&formula_a, w, clause, length), what);
    is_forest(w, rows, what);
    *w = forest_a();
    expect_accepted(call_build(&f, w, &count), what);
    is_forest(w, rows, what);
}

/* P5 to P9, and clauses that are always true, by existentials of two classes and by a universal. */
static void additions(void)
{
    static const int32_t seven_nine[] = { 7, -9 }, five_eight[] = { 5, 8 }, one_two[] = { 1, -2 };
    static const int32_t always_true[] = { 7, -9, -7 }, by_universal[] = { 6, 4, 5, -6 };
    static const struct nine
        a = { { 1, 2, 0, 4, 5, 0, 7, 8, 9 }, { 0, 0, 0, 0, 1, 0, 4, 4, 5 }, { 3, 1, 0, 3, 2, 0, 1, 1, 1 }, 0, 7 },
        p5 = { { 1, 2, 0, 4, 4, 0, 7, 8, 7 }, { 0, 0, 0, 1, 0, 0, 4, 4, 0 }, { 6, 1, 0, 5, 0, 0, 2, 1, 0 }, 2, 5 },
        p7 = { { 1, 2, 0, 4, 4, 0, 7, 8, 9 }, { 0, 0, 0, 1, 0, 0, 4, 4, 4 }, { 6, 1, 0, 5, 0, 0, 1, 1, 1 }, 1, 6 },
        p8 = { { 1, 1, 0, 4, 5, 0, 7, 8, 9 }, { 0, 0, 0, 0, 1, 0, 4, 4, 5 }, { 4, 0, 0, 3, 2, 0, 1, 1, 1 }, 1, 6 };
    static const uint32_t all[] = { 4, 5, 7, 8, 9 }, set_6[] = { 7, 9 }, nine[] = { 9 };
    struct forest w;
    struct formula f;

    adds(seven_nine, 2, &p5, &w, "P5 add 7 -9");
    f = with_clause(seven_nine, 2);
    has_set(&f, &w, 3, all, 5, "P6 set of 3");
    has_set(&f, &w, 6, set_6, 2, "P6 set of 6");
    adds(five_eight, 2, &p7, &w, "P7 add 5 8");
    f = with_clause(five_eight, 2);
    has_set(&f, &w, 6, nine, 1, "P7 set of 6");
    has_set(&f, &w, 3, all, 5, "P7 set of 3");
    adds(one_two, 2, &p8, &w, "P8 add 1 -2");
    adds(one_two, 0, &a, &w, "P9 add the empty clause");
    adds(always_true, 3, &a, &w, "an always-true clause");
    adds(by_universal, 4, &a, &w, "one that a universal makes true");
}

static void has_entry_point(uint32_t x, uint32_t y, uint32_t entry, uint32_t rises, const char *what)
{
    struct forest w = forest_a();
    uint32_t got = 0, passed = 99;

    expect_accepted(call_entry_point(&formula_a, &w, x, y, &got, &passed), what);
    agree(got == entry && passed == rises, what);
}

/* P10, and an entry point several blocks over y. */
static void entry_points(void)
{
    has_entry_point(3, 8, 4, 1, "P10 entry point of 3 for 8");
    has_entry_point(6, 9, 9, 0, "P10 entry point of 6 for 9");
    has_entry_point(3, 9, 5, 1, "entry point of 3 for 9");
    has_entry_point(3, 5, 5, 0, "entry point of 3 for 5");
}

static void clauses(void)
{
    static const uint32_t starts[] = { 0, 4, 7, 10, 13 }, lengths[] = { 3, 2, 2, 2, 2 };
    uint32_t k, start, length;

    for (k = 0; k < 5; k++) {
        about("clause", k);
        start = length = 99;
        expect_accepted(call_clause(&formula_a, k, &start, &length), "clause");
        agree(start == starts[k] && length == lengths[k], "where the clause stands");
    }
}

/* Its text, written and read back. */
static void texts(void)
{
    static const char text[] = "p cnf 9 5\ne 1 2 0\na 3 0\ne 4 5 0\na 6 0\ne 7 8 9 0\n3 4 7 0\n-4 8 0\n6 9 0\n5 9 0\n1 5 0\n";
    uint8_t out[128];
    uint32_t prefix[32], count = 0, n = 0, prefix_count = 0, clauses_count = 0;
    int32_t table[32];

    expect_accepted(call_write(&formula_a, out, sizeof out, &count), "write");
    agree(count == sizeof text - 1 && memcmp(out, text, count) == 0, "the text");
    expect_accepted(call_write(&formula_a, out, sizeof text - 1, &count), "write, with no byte to spare");
    expect_accepted(call_read((const uint8_t *)text, sizeof text - 1, &n, prefix, 32, &prefix_count, table, 32, &clauses_count), "read");
    agree(n == 9 && prefix_count == formula_a.prefix_len && clauses_count == formula_a.clauses_len, "the counts");
    expect_rows(prefix, formula_a.prefix, prefix_count, "the prefix");
    agree(memcmp(table, formula_a.clauses, sizeof *table * clauses_count) == 0, "the clauses");
    expect_accepted(call_read((const uint8_t *)text, sizeof text - 1, &n, prefix, formula_a.prefix_len, &prefix_count,
                              table, formula_a.clauses_len, &clauses_count), "read, with no entry to spare");
}

/* n 0 with empty tables: check, build, add and write accept; nothing else has an x or a clause to ask for. Twice, for both pointers of an empty table. */
static void empty(void)
{
    static const struct formula nothing = { 0, NULL, 0, NULL, 0 };
    static const char text[] = "p cnf 0 0\n";
    struct forest w = { NULL, 0, NULL, 0, NULL, 0, { 7, 7, 7 } };
    uint32_t count, size, n, entry, rises, start, length, prefix_count, clauses_count;
    uint8_t out[16];
    unsigned round;

    for (round = 0; round < 2; round++) {
        about("round", round);
        count = 99;
        expect_accepted(call_check(&nothing), "check");
        expect_accepted(call_build(&nothing, &w, &count), "build");
        agree(count == 0, "build gives n");
        expect_tally(&w, 0, 0, 0, "the tally of nothing");
        expect_accepted(call_add(&nothing, &w, NULL, 0), "add");
        expect_tally(&w, 1, 0, 0, "the tally of the empty clause");
        expect_refused(call_clause(&nothing, 0, &start, &length), 13, 0, "clause");
        expect_refused(call_entry_point(&nothing, &w, 1, 1, &entry, &rises), 13, 0, "entry point");
        expect_refused(call_entry_points(&nothing, &w, 1, NULL, 0, &count), 13, 0, "entry points");
        expect_refused(call_set(&nothing, &w, 1, NULL, 0, &count), 13, 0, "set");
        expect_refused(call_size(&nothing, &w, 1, &size), 13, 0, "size");
        expect_refused_by(&nothing, &w, 1, 0, 13, 0, "by a scheme");
        count = 99;
        expect_accepted(call_sets(&nothing, &w, NULL, 0, &count), "all sets");
        agree(count == 0, "there are none");
        count = 99;
        expect_accepted(call_sets_by(SNOW_STANDARD, &nothing, &w, NULL, 0, &count), "all standard sets");
        expect_accepted(call_sets_by(SNOW_STRICT, &nothing, &w, NULL, 0, &count), "all strict sets");
        agree(count == 0, "there are none");
        expect_accepted(call_write(&nothing, out, sizeof out, &count), "write");
        agree(count == sizeof text - 1 && memcmp(out, text, count) == 0, "the text");
        expect_accepted(call_read((const uint8_t *)text, sizeof text - 1, &n, NULL, 0, &prefix_count, NULL, 0, &clauses_count), "read");
        agree(n == 0 && prefix_count == 0 && clauses_count == 0, "the counts");
        expect_refused(call_read(NULL, 0, &n, NULL, 0, &prefix_count, NULL, 0, &clauses_count), 16, 0, "read the empty text");
        /* 12 calls and 23 by a scheme: an odd number, so that the next round has the other pointer */
    }
}

/* An empty set, of a universal in the innermost block: no output table is needed. */
static void empty_sets(void)
{
    static const uint32_t prefix[] = { 1, 1, 0, 2, 2, 0 };
    static const int32_t table[] = { 1, 2, 0 };
    static const struct formula f = { 2, prefix, LEN(prefix), table, LEN(table) };
    uint32_t classes[2] = { 1, 0 }, parents[2] = { 0, 0 }, counts[2] = { 1, 0 }, out[2] = { 7, 7 }, count, size;
    struct forest w = { classes, 2, parents, 2, counts, 2, { 1, 0, 1 } };
    unsigned round;

    for (round = 0; round < 2; round++) {
        about("round", round);
        count = 99;
        expect_accepted(call_set(&f, &w, 2, NULL, 0, &count), "set");
        agree(count == 0, "it is empty");
        size = 99;
        expect_accepted(call_size(&f, &w, 2, &size), "size");
        agree(size == 0, "its size");
        expect_accepted(call_set_by(SNOW_STANDARD, &f, &w, 2, NULL, 0, &count), "standard set");
        agree(count == 0, "it is empty");
        expect_accepted(call_entry_points(&f, &w, 2, NULL, 0, &count), "entry points");
        agree(count == 0, "there are none");
        expect_accepted(call_sets(&f, &w, out, 2, &count), "all sets");
        agree(count == 2 && out[0] == 2 && out[1] == 0, "its record");
    }
}

void test_formula_a(void)
{
    group("formula A: check, build");
    builds();
    group("formula A: sets and entry points");
    sets();
    entry_points();
    group("formula A: answers by a scheme");
    by_schemes();
    all_by_schemes();
    group("formula A: add");
    additions();
    group("formula A: clause, write, read");
    clauses();
    texts();
    group("empty tables");
    empty();
    empty_sets();
}

/* Each limit, at it and one past it (rule 1.1, rule 8.1, rule 17.2). */
#include <string.h>

#include "comparisons.h"
#include "conformance.h"
#include "expect.h"

enum { SIDE = 64 };  /* the large formula has 64 blocks of 64 variables */

static uint32_t prefix[SNOW_MOST_PREFIX + 1];
static int32_t clauses[SNOW_MOST_CLAUSES + 1];
static uint32_t class_rows[SNOW_MOST_VARIABLES + 2], parent_rows[SNOW_MOST_VARIABLES + 2], count_rows[SNOW_MOST_VARIABLES + 2];
static uint32_t out[SNOW_MOST_VARIABLES + 2];
static uint32_t every[SNOW_MOST_VARIABLES * (SNOW_MOST_VARIABLES + 2)];
static uint8_t text[SNOW_MOST_TEXT + 2];

/* `blocks` blocks of `each` variables, in order of their numbers, the first existential; gives the length. */
static size_t fill_prefix(uint32_t blocks, uint32_t each)
{
    uint32_t b, k, v = 0;
    size_t at = 0;

    for (b = 1; b <= blocks; b++) {
        prefix[at++] = b % 2 == 1 ? 1 : 2;
        for (k = 0; k < each; k++)
            prefix[at++] = ++v;
        prefix[at++] = 0;
    }
    return at;
}

/* One clause of `length - 1` literals, all variables from 1 to n in turn and again, and its 0. */
static void fill_clause(uint32_t n, size_t length)
{
    size_t k;

    for (k = 0; k + 1 < length; k++)
        clauses[k] = k % 2 == 0 ? (int32_t)(k % n + 1) : -(int32_t)(k % n + 1);
    clauses[length - 1] = 0;
}

static struct formula formula(uint32_t n, size_t prefix_len, size_t clauses_len)
{
    struct formula f = { n, prefix, prefix_len, clauses, clauses_len };

    return f;
}

static struct forest forest(uint32_t rows)
{
    struct forest w = { class_rows, rows, parent_rows, rows, count_rows, rows, { 0, 0, 0 } };

    return w;
}

/* Every call with an n over the limit, or tables over theirs, as check refuses it. */
static void every_call(const struct formula *f, uint32_t number, uint32_t place)
{
    struct forest w = forest(SNOW_MOST_VARIABLES + 2);
    uint32_t count, size;

    expect_refused(call_check(f), number, place, "check");
    expect_refused(call_build(f, &w, &count), number, place, "build");
    expect_refused(call_entry_points(f, &w, 1, out, 1, &count), number, place, "entry points");
    expect_refused(call_set(f, &w, 1, out, 1, &count), number, place, "set");
    expect_refused(call_size(f, &w, 1, &size), number, place, "size");
    expect_refused_by(f, &w, 1, 1, number, place, "by a scheme");
    expect_sets_refused(f, &w, out, 1, number, place, "all sets");
    expect_refused(call_write(f, text, 64, &count), number, place, "write");
}

static void prefix_calls(const struct formula *f, uint32_t number, uint32_t place)
{
    struct forest w = forest(SNOW_MOST_VARIABLES + 2);
    uint32_t entry, rises;

    expect_refused(call_entry_point(f, &w, 1, 1, &entry, &rises), number, place, "entry point");
    expect_refused(call_add(f, &w, NULL, 0), number, place, "add");
}

/* The class and the parent of v once one clause joins all variables of 64 blocks of 64: the class is named by the lowest of its block, its parent by that
   of the existential block before. */
static uint32_t joined_class(uint32_t v)
{
    uint32_t block = (v - 1) / SIDE + 1;

    return block % 2 == 1 ? (block - 1) * SIDE + 1 : 0;
}

static uint32_t joined_parent(uint32_t v)
{
    return joined_class(v) == v && v > 2 * SIDE ? v - 2 * SIDE : 0;
}

/* The count of the class that v names: all existentials of its block and of deeper ones. */
static uint32_t joined_count(uint32_t v)
{
    uint32_t block = (v - 1) / SIDE + 1;

    return joined_class(v) == v ? (SIDE - block + 1) / 2 * SIDE : 0;
}

/* The forest of such a clause, and its tally: of each existential block one class is left. */
static void joined_forest(const struct forest *w, const char *what)
{
    uint32_t v, wrong = 0;

    for (v = 1; v <= SNOW_MOST_VARIABLES; v++) {
        wrong += class_rows[v - 1] != joined_class(v) || parent_rows[v - 1] != joined_parent(v);
        wrong += count_rows[v - 1] != joined_count(v);
    }
    agree(wrong == 0, what);
    expect_tally(w, 1, SIDE / 2 * (SIDE - 1), SIDE / 2, what);
}

/* Whether the set that was written is all existentials of blocks deeper than that of x, ascending. */
static int all_deeper(uint32_t x, uint32_t count)
{
    uint32_t v, listed = 0, wrong = 0;

    for (v = x; v <= SNOW_MOST_VARIABLES; v++)
        if (joined_class(v) != 0)
            wrong += out[listed++] != v;
    return count == listed && wrong == 0;
}

/* The standard set of x, and its size. */
static void joined_set(const struct formula *f, uint32_t x)
{
    struct forest w = forest(SNOW_MOST_VARIABLES);
    uint32_t count = 0, size = 0;

    expect_accepted(call_set_by(SNOW_STANDARD, f, &w, x, out, SNOW_MOST_VARIABLES, &count), "standard set");
    agree(all_deeper(x, count), "the set is all that is deeper");
    expect_accepted(call_size_by(SNOW_STANDARD, f, &w, x, &size), "standard size");
    agree(size == count, "its size");
}

/* The strict set of x with both clauses of f, one in each sign, and with the first alone; by its number, or by the call that names none. */
static void joined_strict_set(const struct formula *f, const struct scheme *by, uint32_t x)
{
    struct forest w = forest(SNOW_MOST_VARIABLES);
    struct formula first = *f;
    uint32_t count = 0, size = 0;

    expect_accepted(ask_list(f, &w, 1, by, x, out, SNOW_MOST_VARIABLES, &count), "strict set");
    agree(all_deeper(x, count), "the strict set is all that is deeper");
    expect_accepted(ask_size(f, &w, by, x, &size), "strict size");
    agree(size == count, "its size");
    first.clauses_len = f->clauses_len / 2;
    expect_accepted(ask_list(&first, &w, 1, by, x, out, 0, &count), "strict set, one sign only");
    agree(count == 0, "it is empty");
    expect_accepted(ask_size(&first, &w, by, x, &size), "strict size, one sign only");
    agree(size == 0, "it is 0");
}

/* All sets by a scheme into the large table, of which so many entries are lent. */
static uint32_t sets_into(const struct formula *f, uint32_t scheme, size_t length, uint32_t *count, uint32_t *place)
{
    return snow_sets_by(SNOW_PLAIN, scheme, f->n, f->prefix, f->prefix_len, f->clauses, f->clauses_len, class_rows, SNOW_MOST_VARIABLES,
                        parent_rows, SNOW_MOST_VARIABLES, count_rows, SNOW_MOST_VARIABLES, every, length, count, place);
}

/* All sets by a scheme, each as above, in a table of just the room they need and in one that always suffices; one entry less is too little. */
static void joined_sets(const struct formula *f, uint32_t scheme)
{
    static const size_t spare[] = { 0, SNOW_MOST_VARIABLES * (SNOW_MOST_VARIABLES + 2) };
    uint32_t count, place = 7, x, v, k, wrong, needed = 0;
    size_t at;

    for (x = 1; x <= SNOW_MOST_VARIABLES; x++)
        for (v = x; joined_class(x) == 0 && v <= SNOW_MOST_VARIABLES + 2; v++)
            needed += v > SNOW_MOST_VARIABLES || joined_class(v) != 0;
    for (k = 0; k < LEN(spare); k++) {
        memset(every, 0x5A, sizeof every);
        count = 7;
        agree(sets_into(f, scheme, spare[k] == 0 ? needed : spare[k], &count, &place) == 0, "all sets");
        agree(count == needed && place == 7, "the count of all sets");
        for (x = 1, at = 0, wrong = 0; x <= SNOW_MOST_VARIABLES; x++) {
            size_t first = at;

            if (joined_class(x) != 0)
                continue;
            wrong += every[at] != x;
            for (v = x, at += 2; v <= SNOW_MOST_VARIABLES; v++)
                if (joined_class(v) != 0)
                    wrong += every[at++] != v;
            wrong += every[first + 1] != at - first - 2;
        }
        agree(at == needed && wrong == 0 && every[at] == 0x5A5A5A5A, "each set is all that is deeper");
    }
    memset(every, 0x5A, sizeof every);
    agree(sets_into(f, scheme, needed - 1, &count, &place) == 14, "too little room for all sets");
    agree(count == needed && place == 0 && every[0] == 0x5A5A5A5A && every[needed - 2] == 0x5A5A5A5A, "nothing is written then");
}

/* Strict sets of a formula whose universals have one sign only: each is empty. */
static void empty_records(const struct formula *f)
{
    struct forest w = forest(SNOW_MOST_VARIABLES);
    uint32_t count = 0, at = 0, wrong = 0, x;

    expect_accepted(call_sets(f, &w, out, SNOW_MOST_VARIABLES, &count), "all strict sets, one sign only");
    for (x = 1; x <= SNOW_MOST_VARIABLES; x++)
        if (joined_class(x) == 0) {
            wrong += out[at] != x || out[at + 1] != 0;
            at += 2;
        }
    agree(count == at && wrong == 0, "each is empty");
}

/* n 4,096, 64 blocks, a clause table of 16,384 entries. */
static void largest(void)
{
    struct formula f = formula(SNOW_MOST_VARIABLES, fill_prefix(SIDE, SIDE), SNOW_MOST_CLAUSES);
    struct forest w = forest(SNOW_MOST_VARIABLES);
    uint32_t count = 0, entry = 0, rises = 0, start = 0, length = 0;

    fill_clause(SNOW_MOST_VARIABLES, SNOW_MOST_CLAUSES);
    expect_accepted(call_check(&f), "check");
    expect_accepted(call_build(&f, &w, &count), "build");
    agree(count == SNOW_MOST_VARIABLES, "build gives n");
    joined_forest(&w, "the forest of one giant clause");
    joined_set(&f, SIDE + 1);
    joined_set(&f, 31 * SIDE + 7);
    joined_set(&f, SNOW_MOST_VARIABLES);
    joined_sets(&f, SNOW_STANDARD);
    empty_records(&f);
    expect_accepted(call_entry_point(&f, &w, SIDE + 1, 62 * SIDE + 1, &entry, &rises), "entry point");
    agree(entry == 2 * SIDE + 1 && rises == 30, "thirty rises");
    expect_accepted(call_entry_points_by(SNOW_STANDARD, &f, &w, SIDE + 1, out, 1, &count), "standard entry points");
    agree(count == 1 && out[0] == 2 * SIDE + 1, "one entry point");
    expect_accepted(call_clause(&f, 0, &start, &length), "clause");
    agree(start == 0 && length == SNOW_MOST_CLAUSES - 1, "where it stands");
    expect_refused(call_clause(&f, 1, &start, &length), 13, 0, "clause 1");
    expect_refused(call_write(&f, text, sizeof text, &count), 15, SNOW_MOST_TEXT, "write");
}

/* Two clauses with all variables, each in a sign of its own, and the forest of both: that of either. */
static void largest_strict(void)
{
    static const struct scheme strict = { SNOW_STRICT, SNOW_STRICT };
    struct formula f = formula(SNOW_MOST_VARIABLES, fill_prefix(SIDE, SIDE), 2 * (SNOW_MOST_VARIABLES + 1));
    struct forest w = forest(SNOW_MOST_VARIABLES);
    uint32_t count = 0;
    int32_t k;

    for (k = 0; k <= SNOW_MOST_VARIABLES; k++) {
        clauses[k] = k < SNOW_MOST_VARIABLES ? k + 1 : 0;
        clauses[SNOW_MOST_VARIABLES + 1 + k] = -clauses[k];
    }
    expect_accepted(call_build(&f, &w, &count), "build");
    joined_strict_set(&f, &strict, SIDE + 1);
    joined_strict_set(&f, NULL, SIDE + 1);
    joined_strict_set(&f, &strict, 31 * SIDE + 7);
    joined_strict_set(&f, &strict, SNOW_MOST_VARIABLES);
    joined_sets(&f, SNOW_STRICT);
    expect_accepted(call_entry_points_by(SNOW_STRICT, &f, &w, SIDE + 1, out, 1, &count), "strict entry points");
    agree(count == 1 && out[0] == 2 * SIDE + 1, "one entry point");
    expect_accepted(call_entry_points(&f, &w, SIDE + 1, out, 1, &count), "entry points, no scheme named");
    agree(count == 1 && out[0] == 2 * SIDE + 1, "the same entry point");
}

/* An added clause of 16,384 literals, and one of 16,385. */
static void largest_added(void)
{
    struct formula f = formula(SNOW_MOST_VARIABLES, fill_prefix(SIDE, SIDE), 0);
    struct forest w = forest(SNOW_MOST_VARIABLES);
    uint32_t count;

    expect_accepted(call_build(&f, &w, &count), "build");
    expect_tally(&w, 0, 0, SIDE / 2 * SIDE, "the tally of no clause");
    fill_clause(SNOW_MOST_VARIABLES, SNOW_MOST_CLAUSES + 1);
    clauses[SNOW_MOST_CLAUSES] = 1;
    expect_refused(call_add(&f, &w, clauses, SNOW_MOST_CLAUSES + 1), 2, 0, "add 16,385 literals");
    expect_accepted(call_add(&f, &w, clauses, SNOW_MOST_CLAUSES), "add 16,384 literals");
    joined_forest(&w, "the forest of one giant clause, added");
    w.tally.classes++;
    expect_refused(call_add(&f, &w, clauses, SNOW_MOST_CLAUSES + 1), 2, 0, "2 before 18");
    w.classes_len = 0;
    expect_refused(call_add(&f, &w, clauses, SNOW_MOST_CLAUSES + 1), 2, 0, "2 before 12");
    f.prefix_len = 1;
    expect_refused(call_add(&f, &w, clauses, SNOW_MOST_CLAUSES + 1), 2, 0, "2 before 3");
}

/* n 4,097, 65 blocks, the tables one entry too long, the smallest literal. */
static void past_the_limits(void)
{
    struct formula f;
    uint32_t start, length;

    f = formula(SNOW_MOST_VARIABLES + 1, fill_prefix(1, 1), 0);
    every_call(&f, 1, 0);
    prefix_calls(&f, 1, 0);
    expect_refused(call_clause(&f, 0, &start, &length), 1, 0, "clause");
    f = formula(SNOW_MOST_VARIABLES, fill_prefix(64, 1), 0);
    expect_accepted(call_check(&f), "64 blocks");
    f = formula(SNOW_MOST_VARIABLES, fill_prefix(65, 1), 0);
    every_call(&f, 6, 192);
    prefix_calls(&f, 6, 192);
    prefix[192] = 2;
    every_call(&f, 5, 192);
    prefix[192] = 3;
    every_call(&f, 4, 192);
    f = formula(SNOW_MOST_VARIABLES, fill_prefix(63, 1), 0);
    clauses[0] = 1;
    clauses[1] = -2147483647 - 1;
    clauses[2] = 0;
    f.clauses_len = 3;
    every_call(&f, 10, 1);
    expect_refused(call_clause(&f, 0, &start, &length), 10, 1, "clause");
}

static void long_tables(void)
{
    struct formula f = formula(SNOW_MOST_VARIABLES, 0, 0);
    struct forest w = forest(SNOW_MOST_VARIABLES);
    uint32_t start, length, count;
    size_t k;

    /* no prefix of 8,192 entries is accepted; it is not refused for its length */
    for (k = 0; k <= SNOW_MOST_PREFIX; k++)
        prefix[k] = 1;
    f.prefix_len = SNOW_MOST_PREFIX;
    every_call(&f, 8, 2);
    f.prefix_len = SNOW_MOST_PREFIX + 1;
    every_call(&f, 2, 0);
    prefix_calls(&f, 2, 0);
    f.prefix_len = 0;
    memset(clauses, 0, sizeof clauses);
    f.clauses_len = SNOW_MOST_CLAUSES;
    expect_accepted(call_check(&f), "16,384 empty clauses");
    expect_accepted(call_build(&f, &w, &count), "build");
    expect_tally(&w, SNOW_MOST_CLAUSES, 0, SNOW_MOST_VARIABLES, "all of them are taken");
    expect_accepted(call_clause(&f, SNOW_MOST_CLAUSES - 1, &start, &length), "clause");
    agree(start == SNOW_MOST_CLAUSES - 1 && length == 0, "the last of them");
    expect_refused(call_clause(&f, SNOW_MOST_CLAUSES, &start, &length), 13, 0, "clause");
    f.clauses_len = SNOW_MOST_CLAUSES + 1;
    every_call(&f, 2, 0);
    expect_refused(call_clause(&f, 0, &start, &length), 2, 0, "clause");
    f.n = SNOW_MOST_VARIABLES + 1;
    every_call(&f, 1, 0);
}

/* A clause whose text is 65,536 bytes, or one more: `-4096 ` has 6, `1000 ` 5, `1 ` 2, and the rest 15. */
static struct formula wide_formula(int one_more)
{
    size_t at = 0;

    while (at < 10919)
        clauses[at++] = -4096;
    clauses[at++] = one_more ? -1000 : 1000;
    clauses[at++] = 1;
    clauses[at++] = 0;
    return formula(SNOW_MOST_VARIABLES, 0, at);
}

static void long_texts(void)
{
    static int32_t table[SNOW_MOST_CLAUSES];
    struct formula f = wide_formula(0);
    uint32_t count = 0, n = 0, prefix_count = 0, clauses_count = 0;

    expect_refused(call_write(&f, text, SNOW_MOST_TEXT - 1, &count), 14, 0, "write to 65,535 bytes");
    expect_accepted(call_write(&f, text, sizeof text, &count), "write 65,536 bytes");
    agree(count == SNOW_MOST_TEXT && memcmp(text, "p cnf 4096 1\n-4096 -4096 ", 25) == 0
          && memcmp(text + SNOW_MOST_TEXT - 10, " 1000 1 0\n", 10) == 0, "the text");
    expect_accepted(call_read(text, SNOW_MOST_TEXT, &n, NULL, 0, &prefix_count, table, SNOW_MOST_CLAUSES, &clauses_count),
                    "read 65,536 bytes");
    agree(n == SNOW_MOST_VARIABLES && prefix_count == 0 && clauses_count == f.clauses_len, "the counts");
    agree(memcmp(table, f.clauses, f.clauses_len * sizeof *table) == 0, "the clauses");
    text[SNOW_MOST_TEXT] = '\n';
    expect_refused(call_read(text, SNOW_MOST_TEXT + 1, &n, NULL, 0, &prefix_count, NULL, 0, &clauses_count), 15, SNOW_MOST_TEXT,
                   "read 65,537 bytes");
    memset(text, 0, sizeof text);
    expect_refused(call_read(text, SNOW_MOST_TEXT + 1, &n, NULL, 0, &prefix_count, NULL, 0, &clauses_count), 15, SNOW_MOST_TEXT,
                   "15 before 16");
    f = wide_formula(1);
    expect_refused(call_write(&f, text, sizeof text, &count), 15, SNOW_MOST_TEXT, "write 65,537 bytes");
    expect_refused(call_write(&f, text, 0, &count), 15, SNOW_MOST_TEXT, "15 before 14");
}

/* A comment may be as long as a text. */
static void long_comment(void)
{
    uint32_t n = 0, prefix_count = 0, clauses_count = 0;

    memset(text, 'c', SNOW_MOST_TEXT);
    memcpy(text + SNOW_MOST_TEXT - 11, "\np cnf 7 0\n", 11);
    expect_accepted(call_read(text, SNOW_MOST_TEXT, &n, NULL, 0, &prefix_count, NULL, 0, &clauses_count), "read");
    agree(n == 7, "n");
}

void test_limits(void)
{
    group("limits: the largest formula");
    largest();
    largest_strict();
    largest_added();
    group("limits: one past each");
    past_the_limits();
    long_tables();
    group("limits: texts");
    long_texts();
    long_comment();
}

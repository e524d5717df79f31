/* Reading rules (rule 6.1 to rule 6.4): numbers that are none, and prefixes that are joined, by hand. */
#include <string.h>

#include "comparisons.h"
#include "conformance.h"
#include "expect.h"

/* What loading fills. */
static uint32_t loaded_prefix[64], class_rows[9], parent_rows[9], count_rows[9];
static int32_t loaded_clauses[32];

static struct loaded tables(void)
{
    struct loaded t = { 0, loaded_prefix, 64, 0, loaded_clauses, 32, 0, { class_rows, 9, parent_rows, 9, count_rows, 9, { 0, 0, 0 } }, 9 };

    return t;
}

/* Every call that takes a prefix refuses a rule number that is none, whatever else is wrong; the others take no rule. */
static void no_rule(uint32_t rule)
{
    struct formula f = formula_a;
    struct forest w = forest_a();
    static const int32_t clause[] = { 7, 0 };
    uint32_t out[9] = { 0 }, entry, rises, count, size, start, len;
    uint8_t text[200] = { 0 };
    struct loaded t = tables();

    reading_rule = rule;
    about("rule", rule);
    for (f.n = 9; f.n <= 4097; f.n += 4088) {
        expect_refused(call_check(&f), 23, 0, "check");
        expect_refused(call_build(&f, &w, &count), 23, 0, "build");
        expect_refused(call_entry_point(&f, &w, 3, 8, &entry, &rises), 23, 0, "entry point");
        expect_refused(call_entry_points(&f, &w, 3, out, 9, &count), 23, 0, "entry points");
        expect_refused(call_set(&f, &w, 1, out, 0, &count), 23, 0, "set");
        expect_refused(call_size(&f, &w, 3, &size), 23, 0, "size");
        expect_refused_by(&f, &w, 3, 9, 23, 0, "by a scheme");
        expect_sets_refused(&f, &w, out, 0, 23, 0, "sets");
        expect_refused(call_add(&f, &w, clause, LEN(clause)), 23, 0, "add");
        expect_refused(call_write(&f, text, 0, &count), 23, 0, "write");
        expect_refused(call_store(&f, text, 0, &count), 23, 0, "store");
        expect_refused(call_path(&f, 0, 0, NULL, 0), 23, 0, "path");
    }
    expect_refused(call_load(NULL, 0, &t), 23, 0, "load");
    f.n = 9;
    expect_accepted(call_clause(&f, 1, &start, &len), "clause");
    reading_rule = SNOW_PLAIN;
}

/* A prefix with n 9, and what check says of it where it is joined. */
struct joined {
    uint32_t prefix[16];
    size_t length;
    struct verdict said;
};

static void prefixes(void)
{
    static const struct joined cases[] = {
        { { 1, 0 }, 2, { 0, 0 } },                                /* an empty block alone */
        { { 1, 1, 0, 1, 2, 0 }, 6, { 0, 0 } },                    /* neighbours with one mark */
        { { 1, 1, 0, 2, 0, 1, 2, 0 }, 8, { 0, 0 } },              /* and an empty one between */
        { { 1 }, 1, { 3, 1 } },                                   /* the end is inside a block */
        { { 1, 1, 0, 2, 2 }, 5, { 3, 5 } },
        { { 3, 0 }, 2, { 4, 0 } },                                /* no mark, though its block is empty */
        { { 1, 0, 0 }, 3, { 4, 2 } },
        { { 1, 0, 1, 10, 0 }, 5, { 7, 3 } },
        { { 1, 1, 0, 1, 2, 1, 0 }, 7, { 8, 5 } },                 /* named before, in what is one block */
    };
    struct formula f = formula_a;
    size_t k;

    f.clauses_len = 0;
    reading_rule = SNOW_JOINED;
    for (k = 0; k < LEN(cases); k++) {
        about("prefix", (unsigned)k);
        f.prefix = cases[k].prefix;
        f.prefix_len = cases[k].length;
        expect_verdict(call_check(&f), cases[k].said, "check");
    }
    reading_rule = SNOW_PLAIN;
}

/* 64 blocks, and what may stand behind them: only the mark of one more block that is not empty is 6. */
static void last_block(const uint32_t *more, size_t length, uint32_t number, uint32_t place, const char *what)
{
    static uint32_t prefix[3 * SNOW_MOST_BLOCKS + 8];
    struct formula f = { 100, prefix, 0, NULL, 0 };
    uint32_t b;

    for (b = 0; b < SNOW_MOST_BLOCKS; b++) {
        prefix[f.prefix_len++] = 1 + b % 2;
        prefix[f.prefix_len++] = b + 1;
        prefix[f.prefix_len++] = 0;
    }
    memcpy(prefix + f.prefix_len, more, length * sizeof *prefix);
    f.prefix_len += length;
    reading_rule = SNOW_JOINED;
    expect_refused(call_check(&f), number, place, what);
    reading_rule = SNOW_PLAIN;
}

static void blocks(void)
{
    static const uint32_t same[] = { 2, 65, 0 }, empty[] = { 1, 0, 2, 65, 0 }, other[] = { 1, 0, 1, 65, 0 }, cut[] = { 1 }, cut_same[] = { 2 };

    last_block(same, LEN(same), 0, 0, "the last block goes on");
    last_block(empty, LEN(empty), 0, 0, "behind an empty one too");
    last_block(other, LEN(other), 6, 194, "a 65th block");
    last_block(cut, LEN(cut), 6, 192, "a 65th block, though the prefix ends with its mark");
    last_block(cut_same, LEN(cut_same), 3, 193, "the end is inside the last block");
}

/* Formula A with its blocks spread over more: all that is asked of it is what is asked of A. */
static const uint32_t spread_prefix[] = { 2, 0, 1, 1, 0, 2, 0, 1, 2, 0, 2, 3, 0, 1, 4, 0, 1, 5, 0, 2, 6, 0, 2, 0, 1, 7, 8, 0, 1, 0, 1, 9, 0, 2, 0 };

static void spread(void)
{
    static const uint32_t listed[] = { 3, 3, 4, 7, 8, 6, 1, 9 };
    struct formula f = formula_a;
    struct forest w = forest_a(), a;
    uint32_t out[9] = { 0 }, entry = 0, rises = 0, count = 0;

    f.prefix = spread_prefix;
    f.prefix_len = LEN(spread_prefix);
    expect_refused(call_check(&f), 9, 1, "plain");
    reading_rule = SNOW_JOINED;
    memset(w.classes, 0, 9 * sizeof *w.classes);
    memset(w.parents, 0, 9 * sizeof *w.parents);
    memset(w.counts, 0, 9 * sizeof *w.counts);
    expect_accepted(call_build(&f, &w, &count), "build");
    {
        static uint32_t classes[9], parents[9], counts[9];

        memcpy(classes, w.classes, sizeof classes);
        memcpy(parents, w.parents, sizeof parents);
        memcpy(counts, w.counts, sizeof counts);
        a = forest_a();
        expect_rows(classes, a.classes, 9, "classes of A");
        expect_rows(parents, a.parents, 9, "parents of A");
        expect_rows(counts, a.counts, 9, "counts of A");
    }
    expect_accepted(call_sets_by(SNOW_STANDARD, &f, &a, out, 9, &count), "sets");
    agree(count == LEN(listed), "their entries");
    expect_rows(out, listed, LEN(listed), "sets of A");
    expect_accepted(call_entry_point(&f, &a, 3, 8, &entry, &rises), "entry point");
    agree(entry == 4 && rises == 1, "the entry point of A");
    reading_rule = SNOW_PLAIN;
}

/* Text and file keep the prefix as it was lent, and the file is read back by the rule that it was written by. */
static void kept(void)
{
    static uint8_t bytes[1024];
    static uint32_t prefix[64];
    static int32_t clauses[32];
    struct loaded t = tables();
    struct formula f = formula_a;
    struct forest a;
    uint32_t count = 0, n = 0, prefix_count = 0, clauses_count = 0;

    f.prefix = spread_prefix;
    f.prefix_len = LEN(spread_prefix);
    reading_rule = SNOW_JOINED;
    expect_accepted(call_write(&f, bytes, sizeof bytes, &count), "write");
    expect_accepted(call_read(bytes, count, &n, prefix, LEN(prefix), &prefix_count, clauses, LEN(clauses), &clauses_count), "read");
    agree(n == 9 && prefix_count == LEN(spread_prefix), "the prefix in the text is as long as it was");
    expect_rows(prefix, spread_prefix, LEN(spread_prefix), "the prefix in the text");
    expect_accepted(call_store(&f, bytes, sizeof bytes, &count), "store");
    expect_accepted(call_load(bytes, count, &t), "load");
    agree(t.n == 9 && t.prefix_count == LEN(spread_prefix) && t.with_sets == 0, "the prefix in the file is as long as it was");
    expect_rows(loaded_prefix, spread_prefix, LEN(spread_prefix), "the prefix in the file");
    a = forest_a();
    expect_rows(class_rows, a.classes, 9, "classes of A");
    expect_rows(parent_rows, a.parents, 9, "parents of A");
    expect_rows(count_rows, a.counts, 9, "counts of A");
    reading_rule = SNOW_PLAIN;
    expect_refused(call_load(bytes, count, &t), 9, 1, "load, plain");
    bytes[0]++;
    expect_refused(call_load(bytes, count, &t), 19, 0, "load, an odd length");
    reading_rule = 3;
    expect_refused(call_load(bytes, count, &t), 23, 0, "load, 23 before 19");
    reading_rule = SNOW_PLAIN;
}

void test_reading_rules(void)
{
    static const uint32_t none[] = { 0, 3, 23, 0x102, 0x80000001, 0xFFFFFFFF };
    size_t k;

    group("rule numbers that are none");
    for (k = 0; k < LEN(none); k++)
        no_rule(none[k]);
    group("joined prefixes, by hand");
    prefixes();
    about("64 blocks", 0);
    blocks();
    about("formula A, spread", 0);
    spread();
    kept();
}

/* Build and add on random formulas, against the slow search; and the tallies beside a forest. */
#include "build_and_add.h"
#include "comparisons.h"
#include "expect.h"
#include "judge_tables.h"
#include "shapes_seen.h"

enum {
    FEW = 12,     /* variables of a formula whose clauses are searched one by one */
    LONGEST = 5   /* literals of an added clause */
};

static struct world grown;
static struct tables grown_tables;

/* The rows are those of the searched forest, and the tally that of so many clauses. */
static void compare_forest(const struct world *w, const struct forest *rows, uint32_t taken, const char *what)
{
    uint32_t v, wrong = 0, classes = search_classes(w), existentials = search_existentials(w);

    for (v = 1; v <= w->n; v++)
        wrong += rows->classes[v - 1] != search_class(w, v) || rows->parents[v - 1] != search_parent(w, v);
    agree(wrong == 0, what);
    for (v = 1; v <= w->n; v++)
        wrong += rows->counts[v - 1] != search_count(w, v);
    agree(wrong == 0, "its counts");
    expect_tally(rows, taken, existentials - classes, classes, "its tally");
}

struct forest compare_build(const struct formula *f, struct world *w, struct tables *t)
{
    struct forest rows = rows_for(f->n, t);
    uint32_t count = 0;

    search_variables(w, f);
    search_clauses(w, f);
    search_close(w);
    expect_accepted(call_build(f, &rows, &count), "build");
    agree(count == f->n, "build gives n");
    compare_forest(w, &rows, judge_clause_count(f), "the forest is the searched one");
    return rows;
}

/* Adds one more of the formula's own clauses. */
static void add_own(const struct formula *f, struct forest *rows, const int32_t *clause, size_t length, uint32_t taken)
{
    expect_accepted(call_add(f, rows, clause, length), "add in turn");
    search_join(&grown, clause, length);
    if (f->n > FEW)
        return;
    search_close(&grown);
    compare_forest(&grown, rows, taken, "the forest of the clauses so far");
}

void compare_in_turn(const struct formula *f, const struct forest *built)
{
    struct formula none = *f;
    struct forest rows = rows_for(f->n, &grown_tables);
    uint32_t count = 0, taken = 0;
    size_t start = 0, e;

    none.clauses_len = 0;
    expect_accepted(call_build(&none, &rows, &count), "build of no clause");
    search_variables(&grown, f);
    for (e = 0; e < f->clauses_len; e++) {
        if (f->clauses[e] != 0)
            continue;
        add_own(f, &rows, f->clauses + start, e - start, ++taken);
        start = e + 1;
    }
    expect_rows(rows.classes, built->classes, f->n, "the classes, added in turn");
    expect_rows(rows.parents, built->parents, f->n, "the parents, added in turn");
    expect_rows(rows.counts, built->counts, f->n, "the counts, added in turn");
    expect_tally(&rows, built->tally.clauses, built->tally.merges, built->tally.classes, "the tally, added in turn");
}

static uint32_t draw_clause(uint32_t n, int32_t *clause)
{
    uint32_t length = n == 0 ? 0 : draw(LONGEST), k;

    for (k = 0; k < length; k++)
        clause[k] = draw_literal(n);
    return length;
}

void compare_adds(const struct formula *f, struct world *w, struct forest *rows)
{
    int32_t clause[LONGEST];
    uint32_t length, times, taken = judge_clause_count(f);

    for (times = draw(4); times > 0 && f->n > 0; times--) {
        length = draw_clause(f->n, clause);
        search_join(w, clause, length);
        search_close(w);
        expect_accepted(call_add(f, rows, clause, length), "add");
        compare_forest(w, rows, ++taken, "the forest is that of all clauses");
    }
}

void compare_add(const struct formula *f, struct forest *rows)
{
    int32_t clause[LONGEST];
    uint32_t length = draw_clause(f->n, clause), taken = rows->tally.clauses;

    search_variables(&grown, f);
    search_forest(&grown, rows);
    search_join(&grown, clause, length);
    search_close(&grown);
    expect_accepted(call_add(f, rows, clause, length), "add");
    compare_forest(&grown, rows, taken + 1, "the forest with the clause");
}

/* Add with a tally that may be wrong: the judge's 18, or the forest with the clause if it fits. */
static void compare_tally(const struct formula *f, struct forest *rows)
{
    int32_t clause[LONGEST];
    uint32_t length;

    if (judge_tally(f, rows).number == 0) {
        saw(SAW_TALLY_TAKEN);
        compare_add(f, rows);
        return;
    }
    saw(SAW_TALLY_WRONG);
    length = draw_clause(f->n, clause);
    expect_refused(call_add(f, rows, clause, length), 18, 0, "add, bad tally");
}

void compare_damaged_tally(const struct formula *f, struct forest *rows)
{
    damage_tally(f, &rows->tally);
    compare_tally(f, rows);
}

void compare_near_tallies(const struct formula *f, const struct forest *rows)
{
    static const uint32_t clauses[] = { 7, SNOW_MOST_TAKEN - 1, SNOW_MOST_TAKEN, 0xFFFFFFFF };
    static const uint32_t more[] = { 0, 1, 0xFFFFFFFF };
    struct forest lent;
    size_t k, merges, classes;

    for (k = 0; k < LEN(clauses); k++) {
        for (merges = 0; merges < LEN(more); merges++) {
            for (classes = 0; classes < LEN(more); classes++) {
                lent = copy_forest(f, rows, &grown_tables);
                lent.tally.clauses = clauses[k];
                lent.tally.merges += more[merges];
                lent.tally.classes += more[classes];
                compare_tally(f, &lent);
            }
        }
    }
}

/* Written-out cases of build and add, and of what every call that takes a forest says of its rows. */
#include "cases.h"
#include "comparisons.h"

/* The forest tables that hold, with the tally. */
static struct forest tallied_forest(void)
{
    struct forest w = given_forest();
    const uint32_t *tally = given(GIVEN_TALLY)->numbers;

    w.tally.clauses = tally[0];
    w.tally.merges = tally[1];
    w.tally.classes = tally[2];
    return w;
}

/* A table that was accepted: the rows that the case says are left, and behind them those that were lent. */
static void compare_left(const uint32_t *rows, enum given_name lent, enum given_name left, const char *what)
{
    const struct given *before = given(lent), *after = given(left);
    size_t i, wrong = after->count > before->count;

    for (i = 0; i < before->count; i++)
        wrong += rows[i] != (i < after->count ? after : before)->numbers[i];
    agree(wrong == 0, what);
}

/* What a call leaves; the wrapper of a refused one has compared that it left all as it was. */
static void compare_grown(const struct claim *c, struct verdict v, const struct forest *w, uint32_t gives)
{
    const uint32_t *tally = given(GIVEN_TO_TALLY)->numbers;

    expect_verdict(v, c->verdict, c->call);
    if (c->way != GIVES)
        return;
    agree(gives == c->numbers[0], "the count that it gives");
    compare_left(w->classes, GIVEN_CLASSES, GIVEN_TO_CLASSES, "the classes that are left");
    compare_left(w->parents, GIVEN_PARENTS, GIVEN_TO_PARENTS, "the parents that are left");
    compare_left(w->counts, GIVEN_COUNTS, GIVEN_TO_COUNTS, "the counts that are left");
    expect_tally(w, tally[0], tally[1], tally[2], "the tally that is left");
}

void case_build(const struct claim *c)
{
    struct formula f = given_formula();
    struct forest w = tallied_forest();
    uint32_t count = 0xFFFFFFFF;
    struct verdict v = call_build(&f, &w, &count);

    compare_grown(c, v, &w, count);
}

/* Add gives no count of its own; the case says n. */
void case_add(const struct claim *c)
{
    const struct given *clause = given(GIVEN_CLAUSE);
    struct formula f = given_formula();
    struct forest w = tallied_forest();
    struct verdict v = call_add(&f, &w, (const int32_t *)clause->numbers, clause->count);

    compare_grown(c, v, &w, f.n);
}

/* The refusal by every call that takes the rows; where there is none, the calls that ask refuse 0, and all sets and add accept. */
void case_forest(const struct claim *c)
{
    static uint32_t out[2 * SNOW_MOST_VARIABLES];
    static const struct verdict no_universal = { 13, 0 };
    struct verdict asked = c->way == REFUSED ? c->verdict : no_universal;
    struct formula f = given_formula();
    struct forest w = given_forest();
    uint32_t entry, rises, count, size;

    f.clauses_len = 0;
    expect_verdict(call_entry_point(&f, &w, 0, 0, &entry, &rises), asked, "entry point");
    expect_verdict(call_entry_points(&f, &w, 0, out, 8, &count), asked, "entry points");
    expect_verdict(call_set(&f, &w, 0, out, 8, &count), asked, "set");
    expect_verdict(call_size(&f, &w, 0, &size), asked, "size");
    expect_by(&f, &w, 0, 8, asked, "by a scheme");
    expect_sets(&f, &w, out, LEN(out), c->verdict, "all sets");
    case_add(c);
}

/* Written-out cases of the calls that change no table but an output: check, clause, entry point, entry points, set and size. */
#include <string.h>

#include "cases.h"
#include "comparisons.h"

void case_check(const struct claim *c)
{
    struct formula f = given_formula();

    expect_verdict(call_check(&f), c->verdict, c->call);
}

/* Whether the clause that stands there has the literals of the case. */
static int has_literals(const struct formula *f, uint32_t start, uint32_t length, const struct claim *c)
{
    if (length != c->count || start > f->clauses_len || length > f->clauses_len - start)
        return 0;
    return length == 0 || memcmp(f->clauses + start, c->numbers, length * sizeof *f->clauses) == 0;
}

void case_clause(const struct claim *c)
{
    struct formula f = given_formula();
    uint32_t start = 0xFFFFFFFF, length = 0xFFFFFFFF;

    expect_verdict(call_clause(&f, given_number(GIVEN_ASKED), &start, &length), c->verdict, c->call);
    if (c->way == HAS)
        agree(has_literals(&f, start, length, c), "the literals of the clause");
}

void case_point(const struct claim *c)
{
    struct formula f = given_formula();
    struct forest w = given_forest();
    uint32_t entry = 0xFFFFFFFF, rises = 0xFFFFFFFF;

    expect_verdict(call_entry_point(&f, &w, given_number(GIVEN_X), given_number(GIVEN_Y), &entry, &rises), c->verdict, c->call);
    if (c->way == GIVES_AFTER)
        agree(entry == c->numbers[0] && rises == c->numbers[1], "the entry point and its rises");
}

/* The set of x, or its entry points, in an output of as many rows as there is room for. */
static void compare_list(const struct claim *c, int of_set)
{
    static uint32_t out[MOST_GIVEN_ROWS];
    struct formula f = given_formula();
    struct forest w = given_forest();
    uint32_t count = 0xFFFFFFFF, room = given_number(GIVEN_ROOM);

    agree(room <= LEN(out), "there are as many rows as the case asks for");
    if (room > LEN(out))
        return;
    memset(out, 0x5A, sizeof out);
    expect_verdict(ask_list(&f, &w, of_set, c->by, given_number(GIVEN_X), out, room, &count), c->verdict, c->call);
    if (c->way != LISTS)
        return;
    agree(count == c->count, "the count of the list");
    expect_rows(out, c->numbers, c->count, "the list");
}

void case_set(const struct claim *c)
{
    compare_list(c, 1);
}

void case_entries(const struct claim *c)
{
    compare_list(c, 0);
}

void case_size(const struct claim *c)
{
    struct formula f = given_formula();
    struct forest w = given_forest();
    uint32_t size = 0xFFFFFFFF;

    expect_verdict(ask_size(&f, &w, c->by, given_number(GIVEN_X), &size), c->verdict, c->call);
    if (c->way == GIVES)
        agree(size == c->numbers[0], "the size");
}

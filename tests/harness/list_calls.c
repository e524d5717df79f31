/* The calls of dependency lists, each wrapped so that every byte that was lent is compared. */
#include "comparisons.h"
#include "guarded_tables.h"
#include "list_calls.h"

/* The copies of formula and lists that are lent to the call. */
static struct formula lent;
static const uint32_t *lent_lists;

static void lend_formula(const struct formula *f, const struct lists *d)
{
    lend_begin();
    lent.prefix = lend(f->prefix, f->prefix_len * sizeof *f->prefix);
    lent.clauses = lend(f->clauses, f->clauses_len * sizeof *f->clauses);
    lent_lists = lend(d->entries, d->length * sizeof *d->entries);
}

struct verdict call_check_lists(const struct formula *f, const struct lists *d)
{
    uint32_t *place;

    lend_formula(f, d);
    place = lend_cell();
    lend_end();
    return settle_at(snow_check_lists(reading_rule, f->n, lent.prefix, f->prefix_len, lent.clauses, f->clauses_len,
                                      lent_lists, d->length, place), place);
}

struct verdict call_listed_set_by(uint32_t scheme, const struct formula *f, const struct lists *d, uint32_t x,
                                  uint32_t *out, size_t out_len, uint32_t *count)
{
    uint32_t *table, *cell, *place, number;

    lend_formula(f, d);
    table = lend(out, out_len * sizeof *out);
    cell = lend_cell();
    place = lend_cell();
    lend_end();
    number = snow_listed_set_by(reading_rule, scheme, f->n, lent.prefix, f->prefix_len, lent.clauses, f->clauses_len,
                                lent_lists, d->length, x, table, out_len, cell, place);
    if (number == 0) {
        take(count, cell, sizeof *count);
        agree(*count <= out_len, "the count is within the table");
        if (*count <= out_len)
            take(out, table, *count * sizeof *out);
    }
    return settle_at(number, place);
}

static size_t counted(uint32_t *cell, size_t room)
{
    uint32_t count;

    take(&count, cell, sizeof count);
    agree(count <= room, "the count is within the table");
    return count <= room ? count : 0;
}

struct verdict call_read_lists(const uint8_t *text, size_t length, struct listed_formula *h)
{
    const uint8_t *copy;
    uint32_t *prefix, *lists, *n, *cells[3], *place, number;
    int32_t *clauses;

    lend_begin();
    copy = lend(text, length);
    prefix = lend(h->prefix, h->prefix_len * sizeof *prefix);
    clauses = lend(h->clauses, h->clauses_len * sizeof *clauses);
    lists = lend(h->lists, h->lists_len * sizeof *lists);
    n = lend_cell();
    cells[0] = lend_cell();
    cells[1] = lend_cell();
    cells[2] = lend_cell();
    place = lend_cell();
    lend_end();
    number = snow_read_lists(copy, length, n, prefix, h->prefix_len, cells[0], clauses, h->clauses_len, cells[1],
                             lists, h->lists_len, cells[2], place);
    if (number == 0) {
        take(&h->n, n, sizeof h->n);
        h->prefix_len = counted(cells[0], h->prefix_len);
        h->clauses_len = counted(cells[1], h->clauses_len);
        h->lists_len = counted(cells[2], h->lists_len);
        take(h->prefix, prefix, h->prefix_len * sizeof *prefix);
        take(h->clauses, clauses, h->clauses_len * sizeof *clauses);
        take(h->lists, lists, h->lists_len * sizeof *lists);
    }
    return settle_at(number, place);
}

struct verdict call_write_lists(uint32_t rule, const struct listed_formula *h, uint8_t *text, size_t room, uint32_t *count)
{
    const uint32_t *prefix, *lists;
    const int32_t *clauses;
    uint32_t *cell, *place, number;
    uint8_t *table;

    lend_begin();
    prefix = lend(h->prefix, h->prefix_len * sizeof *prefix);
    clauses = lend(h->clauses, h->clauses_len * sizeof *clauses);
    lists = lend(h->lists, h->lists_len * sizeof *lists);
    table = lend(text, room);
    cell = lend_cell();
    place = lend_cell();
    lend_end();
    number = snow_write_lists(rule, h->n, prefix, h->prefix_len, clauses, h->clauses_len, lists, h->lists_len,
                              table, room, cell, place);
    if (number == 0) {
        *count = (uint32_t)counted(cell, room);
        take(text, table, *count);
    }
    return settle_at(number, place);
}

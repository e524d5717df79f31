/* The calls, each wrapped so that every byte that was lent is compared. */
#include "calls.h"
#include "comparisons.h"
#include "guarded_tables.h"

uint32_t reading_rule = SNOW_PLAIN;

/* The copies of formula and forest that are lent to the call. */
static struct formula lent;
static struct forest rows;
static struct snow_tally *tally;
static uint32_t *place;

static void lend_prefix(const struct formula *f)
{
    lent.n = f->n;
    lent.prefix = lend(f->prefix, f->prefix_len * sizeof *f->prefix);
    lent.prefix_len = f->prefix_len;
}

static void lend_clauses(const struct formula *f)
{
    lent.n = f->n;
    lent.clauses = lend(f->clauses, f->clauses_len * sizeof *f->clauses);
    lent.clauses_len = f->clauses_len;
}

static void lend_forest(const struct forest *w)
{
    rows.classes = lend(w->classes, w->classes_len * sizeof *w->classes);
    rows.classes_len = w->classes_len;
    rows.parents = lend(w->parents, w->parents_len * sizeof *w->parents);
    rows.parents_len = w->parents_len;
    rows.counts = lend(w->counts, w->counts_len * sizeof *w->counts);
    rows.counts_len = w->counts_len;
}

static void lend_tally(const struct forest *w)
{
    tally = lend(&w->tally, sizeof w->tally);
}

static void lend_place(void)
{
    place = lend_cell();
    lend_end();
}

/* Whether a count is within its table; a call that gives more has disagreed, and nothing that it wrote is taken. */
static int within(uint32_t count, size_t room)
{
    agree(count <= room, "the count is within the table");
    return count <= room;
}

struct verdict settle_at(uint32_t number, uint32_t *cell)
{
    struct verdict v = { number, 0 };

    if (number != 0)
        take(&v.place, cell, sizeof v.place);
    agree(nothing_else_changed(), number != 0 ? "a refusal changes nothing but its place" : "nothing else changes");
    return v;
}

static struct verdict settle(uint32_t number)
{
    return settle_at(number, place);
}

struct verdict call_check(const struct formula *f)
{
    lend_begin();
    lend_prefix(f);
    lend_clauses(f);
    lend_place();
    return settle(snow_check(reading_rule, lent.n, lent.prefix, lent.prefix_len, lent.clauses, lent.clauses_len, place));
}

/* Takes the first n rows of all three tables back. */
static void take_rows(struct forest *w, uint32_t n)
{
    if (!within(n, w->classes_len) || !within(n, w->parents_len) || !within(n, w->counts_len))
        return;
    take(w->classes, rows.classes, n * sizeof *w->classes);
    take(w->parents, rows.parents, n * sizeof *w->parents);
    take(w->counts, rows.counts, n * sizeof *w->counts);
}

/* Takes those rows and the tally back. */
static void take_forest(struct forest *w, uint32_t n)
{
    take(&w->tally, tally, sizeof w->tally);
    take_rows(w, n);
}

struct verdict call_build(const struct formula *f, struct forest *w, uint32_t *count)
{
    uint32_t *cell, number;

    lend_begin();
    lend_prefix(f);
    lend_clauses(f);
    lend_forest(w);
    lend_tally(w);
    cell = lend_cell();
    lend_place();
    number = snow_build(reading_rule, lent.n, lent.prefix, lent.prefix_len, lent.clauses, lent.clauses_len, rows.classes, rows.classes_len,
                        rows.parents, rows.parents_len, rows.counts, rows.counts_len, tally, cell, place);
    if (number == 0) {
        take(count, cell, sizeof *count);
        take_forest(w, f->n);
    }
    return settle(number);
}

struct verdict call_clause(const struct formula *f, uint32_t number, uint32_t *start, uint32_t *len)
{
    uint32_t *start_cell, *len_cell, refusal;

    lend_begin();
    lend_clauses(f);
    start_cell = lend_cell();
    len_cell = lend_cell();
    lend_place();
    refusal = snow_clause(lent.n, lent.clauses, lent.clauses_len, number, start_cell, len_cell, place);
    if (refusal == 0) {
        take(start, start_cell, sizeof *start);
        take(len, len_cell, sizeof *len);
    }
    return settle(refusal);
}

struct verdict call_entry_point(const struct formula *f, const struct forest *w, uint32_t x, uint32_t y,
                                uint32_t *entry, uint32_t *rises)
{
    uint32_t *entry_cell, *rises_cell, number;

    lend_begin();
    lend_prefix(f);
    lend_forest(w);
    entry_cell = lend_cell();
    rises_cell = lend_cell();
    lend_place();
    number = snow_entry_point(reading_rule, lent.n, lent.prefix, lent.prefix_len, rows.classes, rows.classes_len,
                              rows.parents, rows.parents_len, rows.counts, rows.counts_len, x, y, entry_cell, rises_cell, place);
    if (number == 0) {
        take(entry, entry_cell, sizeof *entry);
        take(rises, rises_cell, sizeof *rises);
    }
    return settle(number);
}

/* The table and the cell of a call that lists variables; the cell of one that gives a size. */
static uint32_t *list_table, *count_cell;

static void lend_listing(const struct formula *f, const struct forest *w, const uint32_t *out, size_t out_len)
{
    lend_begin();
    lend_prefix(f);
    lend_clauses(f);
    lend_forest(w);
    list_table = lend(out, out_len * sizeof *out);
    count_cell = lend_cell();
    lend_place();
}

static struct verdict settle_listing(uint32_t number, uint32_t *out, size_t out_len, uint32_t *count)
{
    if (number == 0) {
        take(count, count_cell, sizeof *count);
        if (within(*count, out_len))
            take(out, list_table, *count * sizeof *out);
    }
    return settle(number);
}

struct verdict call_entry_points(const struct formula *f, const struct forest *w, uint32_t x,
                                 uint32_t *out, size_t out_len, uint32_t *count)
{
    uint32_t number;

    lend_listing(f, w, out, out_len);
    number = snow_entry_points(reading_rule, lent.n, lent.prefix, lent.prefix_len, lent.clauses, lent.clauses_len, rows.classes, rows.classes_len,
                               rows.parents, rows.parents_len, rows.counts, rows.counts_len, x, list_table, out_len, count_cell, place);
    return settle_listing(number, out, out_len, count);
}

struct verdict call_set(const struct formula *f, const struct forest *w, uint32_t x,
                        uint32_t *out, size_t out_len, uint32_t *count)
{
    uint32_t number;

    lend_listing(f, w, out, out_len);
    number = snow_set(reading_rule, lent.n, lent.prefix, lent.prefix_len, lent.clauses, lent.clauses_len, rows.classes, rows.classes_len,
                      rows.parents, rows.parents_len, rows.counts, rows.counts_len, x, list_table, out_len, count_cell, place);
    return settle_listing(number, out, out_len, count);
}

struct verdict call_sets(const struct formula *f, const struct forest *w, uint32_t *out, size_t out_len, uint32_t *count)
{
    uint32_t number;

    lend_listing(f, w, out, out_len);
    number = snow_sets(reading_rule, lent.n, lent.prefix, lent.prefix_len, lent.clauses, lent.clauses_len, rows.classes, rows.classes_len,
                       rows.parents, rows.parents_len, rows.counts, rows.counts_len, list_table, out_len, count_cell, place);
    return settle_listing(number, out, out_len, count);
}

struct verdict call_sets_by(uint32_t scheme, const struct formula *f, const struct forest *w, uint32_t *out, size_t out_len, uint32_t *count)
{
    uint32_t number;

    lend_listing(f, w, out, out_len);
    number = snow_sets_by(reading_rule, scheme, lent.n, lent.prefix, lent.prefix_len, lent.clauses, lent.clauses_len, rows.classes, rows.classes_len,
                          rows.parents, rows.parents_len, rows.counts, rows.counts_len, list_table, out_len, count_cell, place);
    return settle_listing(number, out, out_len, count);
}

struct verdict call_entry_points_by(uint32_t scheme, const struct formula *f, const struct forest *w, uint32_t x,
                                    uint32_t *out, size_t out_len, uint32_t *count)
{
    uint32_t number;

    lend_listing(f, w, out, out_len);
    number = snow_entry_points_by(reading_rule, scheme, lent.n, lent.prefix, lent.prefix_len, lent.clauses, lent.clauses_len, rows.classes, rows.classes_len,
                                  rows.parents, rows.parents_len, rows.counts, rows.counts_len, x, list_table, out_len, count_cell, place);
    return settle_listing(number, out, out_len, count);
}

struct verdict call_set_by(uint32_t scheme, const struct formula *f, const struct forest *w, uint32_t x,
                           uint32_t *out, size_t out_len, uint32_t *count)
{
    uint32_t number;

    lend_listing(f, w, out, out_len);
    number = snow_set_by(reading_rule, scheme, lent.n, lent.prefix, lent.prefix_len, lent.clauses, lent.clauses_len, rows.classes, rows.classes_len,
                         rows.parents, rows.parents_len, rows.counts, rows.counts_len, x, list_table, out_len, count_cell, place);
    return settle_listing(number, out, out_len, count);
}

struct verdict call_resolution_set(const struct formula *f, uint32_t x, uint32_t *out, size_t out_len, uint32_t *count)
{
    uint32_t number;

    lend_begin();
    lend_prefix(f);
    lend_clauses(f);
    list_table = lend(out, out_len * sizeof *out);
    count_cell = lend_cell();
    lend_place();
    number = snow_resolution_set(reading_rule, lent.n, lent.prefix, lent.prefix_len, lent.clauses, lent.clauses_len, x, list_table, out_len,
                                 count_cell, place);
    return settle_listing(number, out, out_len, count);
}

static void lend_sizing(const struct formula *f, const struct forest *w)
{
    lend_begin();
    lend_prefix(f);
    lend_clauses(f);
    lend_forest(w);
    count_cell = lend_cell();
    lend_place();
}

static struct verdict settle_sizing(uint32_t number, uint32_t *size)
{
    if (number == 0)
        take(size, count_cell, sizeof *size);
    return settle(number);
}

struct verdict call_size(const struct formula *f, const struct forest *w, uint32_t x, uint32_t *size)
{
    uint32_t number;

    lend_sizing(f, w);
    number = snow_size(reading_rule, lent.n, lent.prefix, lent.prefix_len, lent.clauses, lent.clauses_len, rows.classes, rows.classes_len,
                       rows.parents, rows.parents_len, rows.counts, rows.counts_len, x, count_cell, place);
    return settle_sizing(number, size);
}

struct verdict call_size_by(uint32_t scheme, const struct formula *f, const struct forest *w, uint32_t x, uint32_t *size)
{
    uint32_t number;

    lend_sizing(f, w);
    number = snow_size_by(reading_rule, scheme, lent.n, lent.prefix, lent.prefix_len, lent.clauses, lent.clauses_len, rows.classes, rows.classes_len,
                          rows.parents, rows.parents_len, rows.counts, rows.counts_len, x, count_cell, place);
    return settle_sizing(number, size);
}

struct verdict call_add(const struct formula *f, struct forest *w, const int32_t *clause, size_t clause_len)
{
    const int32_t *literals;
    uint32_t number;

    lend_begin();
    lend_prefix(f);
    lend_forest(w);
    lend_tally(w);
    literals = lend(clause, clause_len * sizeof *clause);
    lend_place();
    number = snow_add(reading_rule, lent.n, lent.prefix, lent.prefix_len, rows.classes, rows.classes_len,
                      rows.parents, rows.parents_len, rows.counts, rows.counts_len, tally, literals, clause_len, place);
    if (number == 0)
        take_forest(w, f->n);
    return settle(number);
}

struct verdict call_read(const uint8_t *text, size_t text_len, uint32_t *n,
                         uint32_t *prefix, size_t prefix_len, uint32_t *prefix_count,
                         int32_t *clauses, size_t clauses_len, uint32_t *clauses_count)
{
    const uint8_t *copy;
    uint32_t *prefix_table, *n_cell, *prefix_cell, *clauses_cell, number;
    int32_t *clause_table;

    lend_begin();
    copy = lend(text, text_len);
    prefix_table = lend(prefix, prefix_len * sizeof *prefix);
    clause_table = lend(clauses, clauses_len * sizeof *clauses);
    n_cell = lend_cell();
    prefix_cell = lend_cell();
    clauses_cell = lend_cell();
    lend_place();
    number = snow_read(copy, text_len, n_cell, prefix_table, prefix_len, prefix_cell,
                       clause_table, clauses_len, clauses_cell, place);
    if (number == 0) {
        take(n, n_cell, sizeof *n);
        take(prefix_count, prefix_cell, sizeof *prefix_count);
        take(clauses_count, clauses_cell, sizeof *clauses_count);
        if (within(*prefix_count, prefix_len))
            take(prefix, prefix_table, *prefix_count * sizeof *prefix);
        if (within(*clauses_count, clauses_len))
            take(clauses, clause_table, *clauses_count * sizeof *clauses);
    }
    return settle(number);
}

struct verdict call_write(const struct formula *f, uint8_t *text, size_t text_len, uint32_t *count)
{
    uint8_t *table;
    uint32_t *cell, number;

    lend_begin();
    lend_prefix(f);
    lend_clauses(f);
    table = lend(text, text_len);
    cell = lend_cell();
    lend_place();
    number = snow_write(reading_rule, lent.n, lent.prefix, lent.prefix_len, lent.clauses, lent.clauses_len,
                        table, text_len, cell, place);
    if (number == 0) {
        take(count, cell, sizeof *count);
        if (within(*count, text_len))
            take(text, table, *count);
    }
    return settle(number);
}

struct verdict call_store(const struct formula *f, uint8_t *file, size_t file_len, uint32_t *count)
{
    uint8_t *table;
    uint32_t *cell, number;

    lend_begin();
    lend_prefix(f);
    lend_clauses(f);
    table = lend(file, file_len);
    cell = lend_cell();
    lend_place();
    number = snow_store(reading_rule, lent.n, lent.prefix, lent.prefix_len, lent.clauses, lent.clauses_len, table, file_len, cell, place);
    if (number == 0) {
        take(count, cell, sizeof *count);
        if (within(*count, file_len))
            take(file, table, *count);
    }
    return settle(number);
}

struct verdict call_load(const uint8_t *file, size_t file_len, struct loaded *t)
{
    const uint8_t *copy;
    uint32_t *prefix_table, *n_cell, *prefix_cell, *clauses_cell, *sets_cell, number;
    int32_t *clause_table;

    lend_begin();
    copy = lend(file, file_len);
    prefix_table = lend(t->prefix, t->prefix_len * sizeof *t->prefix);
    clause_table = lend(t->clauses, t->clauses_len * sizeof *t->clauses);
    lend_forest(&t->rows);
    n_cell = lend_cell();
    prefix_cell = lend_cell();
    clauses_cell = lend_cell();
    sets_cell = lend_cell();
    lend_place();
    number = snow_load(reading_rule, copy, file_len, n_cell, prefix_table, t->prefix_len, prefix_cell, clause_table, t->clauses_len, clauses_cell,
                       rows.classes, rows.classes_len, rows.parents, rows.parents_len, rows.counts, rows.counts_len, sets_cell, place);
    if (number == 0) {
        take(&t->n, n_cell, sizeof t->n);
        take(&t->prefix_count, prefix_cell, sizeof t->prefix_count);
        take(&t->clauses_count, clauses_cell, sizeof t->clauses_count);
        take(&t->with_sets, sets_cell, sizeof t->with_sets);
        if (within(t->prefix_count, t->prefix_len))
            take(t->prefix, prefix_table, t->prefix_count * sizeof *t->prefix);
        if (within(t->clauses_count, t->clauses_len))
            take(t->clauses, clause_table, t->clauses_count * sizeof *t->clauses);
        take_rows(&t->rows, t->n);
    }
    return settle(number);
}

struct verdict call_path(const struct formula *f, uint32_t x, uint32_t y, const uint32_t *path, size_t path_len)
{
    struct verdict v = { 0, 0 };
    const uint32_t *numbers;
    size_t *wide_place, wide = 0;

    lend_begin();
    lend_prefix(f);
    lend_clauses(f);
    numbers = lend(path, path_len * sizeof *path);
    wide_place = lend_wide_cell();
    lend_end();
    v.number = snow_path(reading_rule, lent.n, lent.prefix, lent.prefix_len, lent.clauses, lent.clauses_len, x, y, numbers, path_len, wide_place);
    if (v.number != 0)
        take(&wide, wide_place, sizeof wide);
    v.place = (uint32_t)wide;
    agree(v.place == wide, "the place is an entry");
    agree(nothing_else_changed(), v.number != 0 ? "a refusal changes nothing but its place" : "nothing else changes");
    return v;
}

struct verdict call_expand(const struct formula *f, uint32_t x, struct expanded *t)
{
    uint32_t *prefix_table, *n_cell, *prefix_cell, *clauses_cell, number;
    int32_t *clause_table;

    lend_begin();
    lend_prefix(f);
    lend_clauses(f);
    prefix_table = lend(t->prefix, t->prefix_len * sizeof *t->prefix);
    clause_table = lend(t->clauses, t->clauses_len * sizeof *t->clauses);
    n_cell = lend_cell();
    prefix_cell = lend_cell();
    clauses_cell = lend_cell();
    lend_place();
    number = snow_expand(reading_rule, lent.n, lent.prefix, lent.prefix_len, lent.clauses, lent.clauses_len, x, n_cell,
                         prefix_table, t->prefix_len, prefix_cell, clause_table, t->clauses_len, clauses_cell, place);
    if (number == 0) {
        take(&t->n, n_cell, sizeof t->n);
        take(&t->prefix_count, prefix_cell, sizeof t->prefix_count);
        take(&t->clauses_count, clauses_cell, sizeof t->clauses_count);
        if (within(t->prefix_count, t->prefix_len))
            take(t->prefix, prefix_table, t->prefix_count * sizeof *t->prefix);
        if (within(t->clauses_count, t->clauses_len))
            take(t->clauses, clause_table, t->clauses_count * sizeof *t->clauses);
    }
    return settle(number);
}

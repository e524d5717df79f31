/* What the table of refusal numbers (rule 8.1) says of a formula and of a forest. */
#include "judge_tables.h"

static const struct verdict accepted = { 0, 0 };

static struct verdict refused(uint32_t number, size_t place)
{
    struct verdict v;

    v.number = number;
    v.place = (uint32_t)place;
    return v;
}

/* The variable of a literal; with 64 bits the smallest literal has one too. */
static uint64_t variable(int32_t literal)
{
    long long wide = literal;

    return (uint64_t)(wide < 0 ? -wide : wide);
}

/* Entry e is where a mark belongs: the first entry, and each after a 0. */
static int mark_place(const struct formula *f, size_t e)
{
    return e == 0 || f->prefix[e - 1] == 0;
}

static int variable_place(const struct formula *f, size_t e)
{
    return !mark_place(f, e) && f->prefix[e] != 0;
}

/* Entry e is the mark of a block. Where prefixes are joined, one with 0 directly after its mark is none. */
static int block_at(const struct formula *f, size_t e)
{
    int empty = e + 1 < f->prefix_len && f->prefix[e + 1] == 0;

    return mark_place(f, e) && !(reading_rule == SNOW_JOINED && empty);
}

/* The mark of the last block whose mark stands before e; 0 if there is none. */
static uint32_t mark_before(const struct formula *f, size_t e)
{
    size_t k;

    for (k = e; k > 0; k--)
        if (block_at(f, k - 1))
            return f->prefix[k - 1];
    return 0;
}

/* Entry e begins a block. Where prefixes are joined, one with the mark of the block before goes on with that. */
static int begins_at(const struct formula *f, size_t e)
{
    return block_at(f, e) && !(reading_rule == SNOW_JOINED && f->prefix[e] == mark_before(f, e));
}

static size_t blocks_before(const struct formula *f, size_t e)
{
    size_t k, blocks = 0;

    for (k = 0; k < e; k++)
        blocks += begins_at(f, k);
    return blocks;
}

static int named_before(const struct formula *f, size_t e)
{
    size_t k;

    for (k = 0; k < e; k++)
        if (variable_place(f, k) && f->prefix[k] == f->prefix[e])
            return 1;
    return 0;
}

/* Whether the cause of a number from 4 to 9 holds at entry e of the prefix. */
static int prefix_cause(const struct formula *f, uint32_t number, size_t e)
{
    uint32_t entry = f->prefix[e];

    switch (number) {
    case 4: return mark_place(f, e) && entry != 1 && entry != 2;
    case 5: return reading_rule == SNOW_PLAIN && mark_place(f, e) && entry == mark_before(f, e);
    case 6: return begins_at(f, e) && blocks_before(f, e) >= SNOW_MOST_BLOCKS;
    case 7: return variable_place(f, e) && entry > f->n;
    case 8: return variable_place(f, e) && named_before(f, e);
    case 9: return reading_rule == SNOW_PLAIN && entry == 0 && e > 0 && !mark_place(f, e) && mark_place(f, e - 1);
    default: return 0;
    }
}

/* The prefix from the left; at one entry, the lower number. */
static struct verdict prefix_entries(const struct formula *f)
{
    size_t e;
    uint32_t number;

    for (e = 0; e < f->prefix_len; e++)
        for (number = 4; number <= 9; number++)
            if (prefix_cause(f, number, e))
                return refused(number, e);
    if (f->prefix_len > 0 && f->prefix[f->prefix_len - 1] != 0)
        return refused(3, f->prefix_len);
    return accepted;
}

static struct verdict clause_entries(const struct formula *f)
{
    size_t e;

    for (e = 0; e < f->clauses_len; e++)
        if (variable(f->clauses[e]) > f->n)
            return refused(10, e);
    if (f->clauses_len > 0 && f->clauses[f->clauses_len - 1] != 0)
        return refused(11, f->clauses_len);
    return accepted;
}

struct verdict judge_prefix(const struct formula *f)
{
    if (reading_rule != SNOW_PLAIN && reading_rule != SNOW_JOINED)
        return refused(23, 0);
    if (f->n > SNOW_MOST_VARIABLES)
        return refused(1, 0);
    if (f->prefix_len > SNOW_MOST_PREFIX)
        return refused(2, 0);
    return prefix_entries(f);
}

struct verdict judge_clauses(const struct formula *f)
{
    if (f->n > SNOW_MOST_VARIABLES)
        return refused(1, 0);
    if (f->clauses_len > SNOW_MOST_CLAUSES)
        return refused(2, 0);
    return clause_entries(f);
}

struct verdict judge_formula(const struct formula *f)
{
    struct verdict v = judge_prefix(f);

    if (v.number == 23 || v.number == 1 || v.number == 2)
        return v;
    if (f->clauses_len > SNOW_MOST_CLAUSES)
        return refused(2, 0);
    return v.number != 0 ? v : clause_entries(f);
}

struct verdict judge_added(const struct formula *f, const int32_t *clause, size_t clause_len)
{
    struct verdict v = judge_prefix(f);
    size_t e;

    if (v.number == 23 || v.number == 1 || v.number == 2)
        return v;
    if (clause_len > SNOW_MOST_CLAUSES)
        return refused(2, 0);
    if (v.number != 0)
        return v;
    for (e = 0; e < clause_len; e++)
        if (clause[e] == 0 || variable(clause[e]) > f->n)
            return refused(10, e);
    return accepted;
}

/* The entry that names v; the prefix's length if none does. */
static size_t entry_of(const struct formula *f, uint32_t v)
{
    size_t e;

    for (e = 0; e < f->prefix_len; e++)
        if (variable_place(f, e) && f->prefix[e] == v)
            return e;
    return f->prefix_len;
}

uint32_t judge_block(const struct formula *f, uint32_t v)
{
    size_t e = entry_of(f, v);

    if (e < f->prefix_len)
        return (uint32_t)blocks_before(f, e);
    for (e = 0; e < f->prefix_len; e++)
        if (block_at(f, e))
            return f->prefix[e] == 1 ? 1 : 0;
    return 0;
}

int judge_universal(const struct formula *f, uint32_t v)
{
    size_t e = entry_of(f, v);

    return v >= 1 && v <= f->n && e < f->prefix_len && mark_before(f, e) == 2;
}

int judge_existential(const struct formula *f, uint32_t v)
{
    return v >= 1 && v <= f->n && !judge_universal(f, v);
}

uint32_t judge_clause_count(const struct formula *f)
{
    size_t e;
    uint32_t count = 0;

    for (e = 0; e < f->clauses_len; e++)
        count += f->clauses[e] == 0;
    return count;
}

/* c is a class name: existential, and names itself. */
static int class_name(const struct formula *f, const struct forest *w, uint32_t c)
{
    return judge_existential(f, c) && w->classes[c - 1] == c;
}

static int right_class(const struct formula *f, const struct forest *w, uint32_t v)
{
    uint32_t c = w->classes[v - 1];

    return c <= v && class_name(f, w, c) && judge_block(f, c) == judge_block(f, v);
}

static int right_parent(const struct formula *f, const struct forest *w, uint32_t v)
{
    uint32_t p = w->parents[v - 1];

    if (p == 0)
        return 1;
    return class_name(f, w, v) && class_name(f, w, p) && judge_block(f, p) < judge_block(f, v);
}

/* The rows of classes and parents that v has. */
static int right_rows(const struct formula *f, const struct forest *w, uint32_t v)
{
    if (judge_universal(f, v))
        return w->classes[v - 1] == 0 && w->parents[v - 1] == 0;
    return right_class(f, w, v) && right_parent(f, w, v);
}

/* y is in class c or in a class below it, by tables whose classes and parents are right. */
static int at_or_below(const struct forest *w, uint32_t y, uint32_t c)
{
    uint32_t name = w->classes[y - 1];

    while (name != 0 && name != c)
        name = w->parents[name - 1];
    return name == c;
}

/* For a class name the number of variables in it and in all classes below; 0 elsewhere. */
static int right_count(const struct formula *f, const struct forest *w, uint32_t v)
{
    uint32_t y, count = 0;

    for (y = 1; class_name(f, w, v) && y <= f->n; y++)
        count += (uint32_t)at_or_below(w, y, v);
    return w->counts[v - 1] == count;
}

uint32_t judge_rows(const struct formula *f, const struct forest *w)
{
    uint32_t v;

    for (v = 1; v <= f->n; v++)
        if (!right_rows(f, w, v))
            return v;
    return 0;
}

/* The counts are judged once all else is well formed. */
struct verdict judge_forest(const struct formula *f, const struct forest *w)
{
    uint32_t v;

    if (w->classes_len < f->n || w->parents_len < f->n || w->counts_len < f->n)
        return refused(12, 0);
    v = judge_rows(f, w);
    if (v != 0)
        return refused(12, v);
    for (v = 1; v <= f->n; v++)
        if (!right_count(f, w, v))
            return refused(12, v);
    return accepted;
}

struct verdict judge_tally(const struct formula *f, const struct forest *w)
{
    uint64_t sum = (uint64_t)w->tally.merges + w->tally.classes;
    uint32_t v, names = 0, existentials = 0;

    for (v = 1; v <= f->n; v++) {
        names += (uint32_t)class_name(f, w, v);
        existentials += (uint32_t)judge_existential(f, v);
    }
    if (w->tally.clauses >= SNOW_MOST_TAKEN || w->tally.classes != names || sum != existentials)
        return refused(18, 0);
    return accepted;
}

/* Random formulas, forests and texts, drawn within the rules and damaged. */
#include <string.h>

#include "expect.h"
#include "generator.h"
#include "judge_tables.h"

enum {
    MOST_N = 24,       /* variables of a formula */
    MOST_BLOCKS = 9
};

/* The same numbers in every run: xorshift with a fixed start. */
static uint64_t state = 88172645463325252u;

uint32_t draw(uint32_t below)
{
    state ^= state << 13;
    state ^= state >> 7;
    state ^= state << 17;
    return (uint32_t)((state >> 11) % below);
}

static uint32_t order[SMALL + 1];

/* All variables in a random order. */
static void shuffle(uint32_t n)
{
    uint32_t v, k, other;

    for (v = 1; v <= n; v++)
        order[v - 1] = v;
    for (v = n; v > 1; v--) {
        k = draw(v);
        other = order[k];
        order[k] = order[v - 1];
        order[v - 1] = other;
    }
}

void draw_prefix(struct drawn *d, uint32_t n, uint32_t blocks)
{
    uint32_t b, left = n, mark = 1 + draw(2), take;
    size_t at = 0;

    shuffle(n);
    for (b = blocks; b > 0; b--) {
        take = 1 + draw((left - (b - 1)) * 2 / b > 0 ? (left - (b - 1)) * 2 / b : 1);
        if (take > left - (b - 1))
            take = left - (b - 1);
        d->prefix[at++] = mark;
        mark = 3 - mark;
        while (take-- > 0)
            d->prefix[at++] = order[--left];
        d->prefix[at++] = 0;
    }
    d->f.prefix = d->prefix;
    d->f.prefix_len = at;
}

/* Up to two empty blocks. */
static size_t put_empty(uint32_t *prefix, size_t at)
{
    uint32_t k;

    for (k = draw(4) == 0 ? 1 + draw(2) : 0; k > 0; k--) {
        prefix[at++] = 1 + draw(2);
        prefix[at++] = 0;
    }
    return at;
}

void draw_spread(struct drawn *d)
{
    static uint32_t whole[ROOM];
    size_t e, at, length = d->f.prefix_len;
    uint32_t mark = 0;

    memcpy(whole, d->prefix, length * sizeof *whole);
    at = put_empty(d->prefix, 0);
    for (e = 0; e < length; e++) {
        if (e == 0 || whole[e - 1] == 0)
            mark = whole[e];
        d->prefix[at++] = whole[e];
        if (whole[e] == 0) {
            at = put_empty(d->prefix, at);
        } else if (e > 0 && whole[e - 1] != 0 && whole[e + 1] != 0 && draw(4) == 0) {
            /* the block goes on in one of its own */
            d->prefix[at++] = 0;
            at = put_empty(d->prefix, at);
            d->prefix[at++] = mark;
        }
    }
    d->f.prefix_len = at;
}

int32_t draw_literal(uint32_t n)
{
    int32_t v = (int32_t)(1 + draw(n));

    return draw(2) ? v : -v;
}

void draw_clauses(struct drawn *d, uint32_t n, uint32_t count, uint32_t longest)
{
    size_t at = 0;
    uint32_t left;

    for (; count > 0; count--) {
        for (left = n == 0 ? 0 : draw(longest + 1); left > 0; left--)
            d->clauses[at++] = draw_literal(n);
        d->clauses[at++] = 0;
    }
    d->f.clauses = d->clauses;
    d->f.clauses_len = at;
}

void draw_formula(struct drawn *d)
{
    uint32_t n = draw(MOST_N + 1), blocks = draw((n < MOST_BLOCKS ? n : MOST_BLOCKS) + 1);
    uint32_t count = draw(n + 3), longest = 1 + draw(5);

    d->f.n = n;
    draw_prefix(d, n, blocks);
    draw_clauses(d, n, count, longest);
}

void draw_signs(struct drawn *d)
{
    uint32_t x, times;

    for (x = 1; x <= d->f.n; x++) {
        for (times = judge_universal(&d->f, x) ? draw(6) : 0; times > 0; times--) {
            d->clauses[d->f.clauses_len++] = draw(2) ? (int32_t)x : -(int32_t)x;
            d->clauses[d->f.clauses_len++] = draw_literal(d->f.n);
            d->clauses[d->f.clauses_len++] = 0;
        }
    }
}

/* A value that is likely to be wrong somewhere. */
static uint32_t odd_value(uint32_t n)
{
    static const uint32_t values[] = { 0, 1, 2, 3, 4097, 0x7FFFFFFF, 0x80000000, 0xFFFFFFFF };
    uint32_t k = draw((uint32_t)LEN(values) + 4);

    return k < LEN(values) ? values[k] : n + 2 - draw(4);
}

/* Changes, removes or repeats one entry of a table, or cuts its end off. */
static size_t damage(uint32_t *table, size_t length, uint32_t n)
{
    uint32_t kind = draw(4);
    size_t at = length == 0 ? 0 : draw((uint32_t)length);

    if (length == 0 || kind == 0) {
        if (length < ROOM)
            table[length++] = odd_value(n);
        return length;
    }
    if (kind == 1) {
        table[at] = odd_value(n);
        return length;
    }
    if (kind == 2) {
        memmove(table + at, table + at + 1, (length - at - 1) * sizeof *table);
        return length - 1;
    }
    return at;
}

void damage_formula(struct drawn *d)
{
    switch (draw(5)) {
    case 0: d->f.n = odd_value(d->f.n) % 4098; break;
    case 1: d->f.clauses_len = damage((uint32_t *)d->clauses, d->f.clauses_len, d->f.n); break;
    default: d->f.prefix_len = damage(d->prefix, d->f.prefix_len, d->f.n); break;
    }
}

struct forest rows_for(uint32_t n, struct tables *t)
{
    struct forest rows = { t->classes, n, t->parents, n, t->counts, n, { 7, 77, 777 } };

    rows.classes_len += draw(4);
    rows.parents_len += draw(4);
    rows.counts_len += draw(4);
    return rows;
}

/* Random classes, each in its block, and parents, each over it. */
static void draw_rows(const struct formula *f, struct tables *t)
{
    uint32_t v, c;

    for (v = 1; v <= f->n; v++) {
        t->classes[v - 1] = judge_existential(f, v) ? v : 0;
        t->parents[v - 1] = 0;
        c = 1 + draw(v);
        if (judge_existential(f, v) && t->classes[c - 1] == c && judge_block(f, c) == judge_block(f, v))
            t->classes[v - 1] = c;
    }
    for (v = 1; v <= f->n; v++) {
        c = 1 + draw(f->n);
        if (t->classes[v - 1] == v && t->classes[c - 1] == c && judge_block(f, c) < judge_block(f, v))
            t->parents[v - 1] = c;
    }
}

/* The counts of well-formed classes and parents: each existential counts in every class from its own up. */
static void fill_counts(const struct formula *f, struct forest *rows)
{
    uint32_t v, c;

    for (v = 1; v <= f->n; v++)
        rows->counts[v - 1] = 0;
    for (v = 1; v <= f->n; v++)
        for (c = rows->classes[v - 1]; c != 0; c = rows->parents[c - 1])
            rows->counts[c - 1]++;
}

void draw_tally(const struct formula *f, struct forest *rows)
{
    uint32_t v;

    memset(&rows->tally, 0, sizeof rows->tally);
    rows->tally.clauses = draw(2) ? draw(9) : SNOW_MOST_TAKEN - 1 - draw(9);
    for (v = 1; v <= f->n; v++) {
        rows->tally.classes += rows->classes[v - 1] == v;
        rows->tally.merges += rows->classes[v - 1] != 0 && rows->classes[v - 1] != v;
    }
}

struct forest draw_forest(const struct formula *f, struct tables *t)
{
    struct forest rows = rows_for(f->n, t);

    draw_rows(f, t);
    fill_counts(f, &rows);
    draw_tally(f, &rows);
    return rows;
}

struct forest copy_forest(const struct formula *f, const struct forest *from, struct tables *t)
{
    struct forest rows = rows_for(f->n, t);

    memcpy(t->classes, from->classes, f->n * sizeof *t->classes);
    memcpy(t->parents, from->parents, f->n * sizeof *t->parents);
    memcpy(t->counts, from->counts, f->n * sizeof *t->counts);
    rows.tally = from->tally;
    return rows;
}

void damage_tally(const struct formula *f, struct snow_tally *tally)
{
    uint32_t by = odd_value(f->n);

    switch (draw(4)) {
    case 0: tally->clauses = draw(2) ? SNOW_MOST_TAKEN - 2 + draw(4) : by; break;
    case 1: tally->merges = by; break;
    case 2: tally->classes = by; break;
    default:
        tally->merges -= by;
        tally->classes += by;
        break;
    }
}

void damage_forest(const struct formula *f, struct forest *rows)
{
    uint32_t row = draw(f->n), kind = draw(10);

    if (kind == 0)
        rows->parents_len = row;
    else if (kind == 1)
        rows->counts_len = row;
    else if (kind <= 3)
        rows->counts[row] = odd_value(f->n);
    else if (kind <= 6)
        rows->classes[row] = odd_value(f->n);
    else
        rows->parents[row] = draw(f->n + 1);
    if (kind > 3 && draw(2) && judge_rows(f, rows) == 0)
        fill_counts(f, rows);
}

static int is_digit(uint8_t byte)
{
    return byte >= '0' && byte <= '9';
}

/* Whether a byte is the first digit of its number. */
static int begins_number(const uint8_t *text, size_t at)
{
    return is_digit(text[at]) && (at == 0 || !is_digit(text[at - 1]));
}

/* Pads the first number at or after a byte of a text with one to five zeros; gives the length. */
static size_t pad_text(uint8_t *text, size_t length, size_t room, size_t at)
{
    size_t zeros = 1 + draw(5);

    while (at < length && !begins_number(text, at))
        at++;
    if (at == length || room - length < zeros)
        return length;
    memmove(text + at + zeros, text + at, length - at);
    memset(text + at, '0', zeros);
    return length + zeros;
}

size_t damage_text(uint8_t *text, size_t length, size_t room)
{
    static const char bytes[] = "\n\n  00-19ceapn\t\r";
    size_t at = draw((uint32_t)length);

    switch (draw(5)) {
    case 0:
        text[at] = (uint8_t)bytes[draw(sizeof bytes - 1)];
        return length;
    case 1:
        memmove(text + at, text + at + 1, length - at - 1);
        return length - 1;
    case 2:
        if (length == room)
            return length;
        memmove(text + at + 1, text + at, length - at);
        text[at] = (uint8_t)bytes[draw(sizeof bytes - 1)];
        return length + 1;
    case 3:
        return pad_text(text, length, room, at);
    default:
        return draw(3) == 0 ? at : length;
    }
}


/*
 * The formulas that are measured. At the largest size each meets a limit: n
 * 4,096, the text's 65,536 bytes, or 16,384 clause entries. (A prefix within
 * the rules has at most 4,224 entries.) One variable in sixteen is universal,
 * but in the family of many universals three in four.
 */
#include "families.h"

static uint64_t state;

void draw_from(uint64_t start)
{
    state = start * 2685821657736338717u + 88172645463325252u;
}

uint32_t draw(uint32_t below)
{
    state ^= state << 13;
    state ^= state >> 7;
    state ^= state << 17;
    return (uint32_t)((state >> 11) % below);
}

/* A block more, of the next `count` variables. Blocks alternate from the mark of the first. */
static void add_block(struct formula *f, uint32_t mark, uint32_t block, uint32_t count)
{
    f->prefix[f->prefix_len++] = mark;
    while (count-- > 0) {
        f->prefix[f->prefix_len++] = ++f->n;
        f->block[f->n] = block;
        f->universal[f->n] = mark == 2;
    }
    f->prefix[f->prefix_len++] = 0;
}

/* Of n variables one in sixteen is universal, but at least one in each universal block: how many stand in each of so many blocks. */
static uint32_t universals_each(uint32_t n, uint32_t blocks)
{
    return n / 16 / (blocks / 2) > 0 ? n / 16 / (blocks / 2) : 1;
}

static uint32_t existentials_each(uint32_t n, uint32_t blocks)
{
    return n / (blocks / 2) - universals_each(n, blocks);
}

/* n variables in `blocks` blocks, the first existential. */
static void add_blocks(struct formula *f, uint32_t n, uint32_t blocks)
{
    uint32_t b;

    f->n = 0;
    f->prefix_len = 0;
    f->clauses_len = 0;
    for (b = 1; b <= blocks; b++)
        add_block(f, b % 2 == 1 ? 1 : 2, b, b % 2 == 1 ? existentials_each(n, blocks) : universals_each(n, blocks));
}

/* One literal in eight is negative, so that the text stays within its limit; the standard sets, which are measured, do not depend on signs. */
static void add_literal(struct formula *f, uint32_t v)
{
    f->clauses[f->clauses_len++] = draw(8) == 0 ? -(int32_t)v : (int32_t)v;
}

static void end_clause(struct formula *f)
{
    f->clauses[f->clauses_len++] = 0;
}

/* A clause of three different variables. */
static void add_random_clause(struct formula *f)
{
    uint32_t a = 1 + draw(f->n), b = 1 + draw(f->n), c = 1 + draw(f->n);

    while (b == a)
        b = 1 + draw(f->n);
    while (c == a || c == b)
        c = 1 + draw(f->n);
    add_literal(f, a);
    add_literal(f, b);
    add_literal(f, c);
    end_clause(f);
}

/* Existential j, and universal j (counted round), of the pair of blocks p, all from 0, of 64 blocks. */
static uint32_t existential(const struct formula *f, uint32_t p, uint32_t j)
{
    return p * (f->n / 32) + j + 1;
}

static uint32_t universal(const struct formula *f, uint32_t p, uint32_t j)
{
    return p * (f->n / 32) + existentials_each(f->n, 64) + j % universals_each(f->n, 64) + 1;
}

/* Columns: in each, every existential is joined to the one two blocks deeper, with a universal of the block between. */
static void fill_chains(struct formula *f, uint32_t n)
{
    uint32_t p, j;

    add_blocks(f, n, 64);
    for (j = 0; j < existentials_each(n, 64); j++) {
        for (p = 0; p + 1 < 32; p++) {
            add_literal(f, existential(f, p, j));
            if (j < universals_each(n, 64))
                add_literal(f, universal(f, p, j));
            add_literal(f, existential(f, p + 1, j));
            end_clause(f);
        }
    }
}

/* Eight blocks, one clause of three for every two variables. */
static void fill_sparse(struct formula *f, uint32_t n)
{
    uint32_t k;

    add_blocks(f, n, 8);
    for (k = 0; k < n / 2; k++)
        add_random_clause(f);
}

/* Eight blocks, eight clauses of three for every variable: 16,384 entries of 512 variables. */
static void fill_dense(struct formula *f, uint32_t n)
{
    uint32_t k;

    add_blocks(f, n, 8);
    for (k = 0; k < 8 * n; k++)
        add_random_clause(f);
}

/* Eight blocks, one clause of all variables. */
static void fill_giant(struct formula *f, uint32_t n)
{
    uint32_t v;

    add_blocks(f, n, 8);
    for (v = 1; v <= n; v++)
        add_literal(f, v);
    end_clause(f);
}

/* Rungs of four join each existential block into one class, a rail joins it to the next, and a universal stands on every rung it can. */
static void fill_ladder(struct formula *f, uint32_t n)
{
    uint32_t p, j, k, each = existentials_each(n, 64);

    add_blocks(f, n, 64);
    for (p = 1; p < 32; p++) {
        add_literal(f, existential(f, p - 1, 0));
        add_literal(f, universal(f, p - 1, 0));
        add_literal(f, existential(f, p, 0));
        end_clause(f);
        for (j = 0; j + 1 < each; j += 3) {
            if (j / 3 < universals_each(n, 64))
                add_literal(f, universal(f, p - 1, j / 3));
            for (k = j; k < each && k <= j + 3; k++)
                add_literal(f, existential(f, p, k));
            end_clause(f);
        }
    }
}

/* Three universals for each existential, in four blocks a e a e; each universal with one existential deeper than it. */
static void fill_universals(struct formula *f, uint32_t n)
{
    uint32_t quarter = n / 4, half = quarter / 2, x, first_e, last_e;

    f->n = 0;
    f->prefix_len = 0;
    f->clauses_len = 0;
    add_block(f, 2, 1, quarter + half);
    add_block(f, 1, 2, half);
    add_block(f, 2, 3, quarter + half);
    add_block(f, 1, 4, half);
    first_e = quarter + half + 1;
    last_e = 2 * (quarter + half) + half + 1;
    for (x = 1; x <= n; x++) {
        if (!f->universal[x])
            continue;
        add_literal(f, x);
        add_literal(f, (x < first_e && draw(2) ? first_e : last_e) + draw(half));
        end_clause(f);
    }
}

const struct family families[FAMILIES] = {
    { "chains", "columns that rise through all 64 blocks", 64, 4096, fill_chains },
    { "sparse", "random, 8 blocks, one clause of 3 for two variables", 64, 4096, fill_sparse },
    { "dense", "random, 8 blocks, eight clauses of 3 for each variable", 16, 512, fill_dense },
    { "giant", "8 blocks, one clause of all variables", 64, 4096, fill_giant },
    { "ladder", "64 blocks, each existential one a single class, all on one chain", 64, 4096, fill_ladder },
    { "universals", "4 blocks, three universals for each existential", 64, 4096, fill_universals },
};

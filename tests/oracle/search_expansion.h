/*
 * A universal expanded: the formula without it, made step by step as rule 12.2
 * and rule 12.3 have it, with the set from the slow search.
 */
#ifndef SEARCH_EXPANSION_H
#define SEARCH_EXPANSION_H

#include "calls.h"

enum { MADE_BLOCKS = 1024, MADE_PREFIX = 4096, MADE_CLAUSES = 8192 };  /* room for what is made of a small formula */

/* A formula that is made: its own tables. */
struct made {
    uint32_t n;
    uint32_t prefix[MADE_PREFIX];
    size_t prefix_len;
    int32_t clauses[MADE_CLAUSES];
    size_t clauses_len;
};

/* Expands the universal x of an accepted formula of at most SMALL variables; what comes out stays until the next one is expanded. */
const struct made *search_expansion(const struct formula *f, uint32_t x);

/*
 * The number of literals of the expanded formula, from the formula as it was
 * (rule 12.4): a clause counts once without x or member, twice with a member
 * but not x, and with x once less its x literals. After search_expansion.
 */
size_t search_literal_total(const struct formula *f, uint32_t x);

#endif

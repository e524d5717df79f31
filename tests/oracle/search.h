/*
 * An independent slow search, written from the definitions of reach, class,
 * parent and entry point (rule 2.1 to rule 2.8), count (rule 4.1) and set by
 * either scheme (rule 5.1, rule 5.2), for small formulas that are accepted.
 * Nothing here is clever: reach is a closure, all else is looked up in it.
 */
#ifndef SEARCH_H
#define SEARCH_H

#include "calls.h"

enum { SMALL = 72 };  /* most variables of a formula that is searched */

/* A small formula: the block of each variable, which are existential, and which share a clause. Row 0 is unused. */
struct world {
    uint32_t n;
    uint32_t block[SMALL + 1];
    unsigned char existential[SMALL + 1];
    unsigned char together[SMALL + 1][SMALL + 1];
    /* beside[0][v][y]: y is in a clause with v; beside[1][v][y]: in one with the negation of v */
    unsigned char beside[2][SMALL + 1][SMALL + 1];
    /* reach[i][v][y]: v reaches y at level i; search_close fills it */
    unsigned char reach[SNOW_MOST_BLOCKS + 1][SMALL + 1][SMALL + 1];
};

/* A formula's variables and no clause. */
void search_variables(struct world *w, const struct formula *f);

/* One more clause, by its variables in either sign; one that is always true joins nothing. */
void search_join(struct world *w, const int32_t *clause, size_t clause_len);

/* All clauses of a table. */
void search_clauses(struct world *w, const struct formula *f);

/* The clauses that forest tables stand for (rule 3.5): {v, class name of v} for each existential, {class, parent} for each class with one. */
void search_forest(struct world *w, const struct forest *rows);

/* Reach at every level; before any question below. */
void search_close(struct world *w);

/* The class of v, by its lowest variable, and the parent of the class that v names; 0 for a universal, and where v names none. */
uint32_t search_class(const struct world *w, uint32_t v);
uint32_t search_parent(const struct world *w, uint32_t v);

/* The number of variables in the class that v names and in all classes below it; 0 where v names none. */
uint32_t search_count(const struct world *w, uint32_t v);

/* How many existentials there are, and how many classes. */
uint32_t search_existentials(const struct world *w);
uint32_t search_classes(const struct world *w);

/* Whether y is in the set of the universal x by a scheme. */
int search_in_set(const struct world *w, enum snow_scheme scheme, uint32_t x, uint32_t y);

/* Whether y is existential and deeper than x. */
int search_deeper(const struct world *w, uint32_t x, uint32_t y);

/* Entry point of x for y, and its rises, by the classes above that of y. */
uint32_t search_entry(const struct world *w, uint32_t x, uint32_t y, uint32_t *rises);

/* Entry point of x for y, and its rises, by lent tables, which need not be the formula's. */
uint32_t search_lent_entry(const struct world *w, const struct forest *rows, uint32_t x, uint32_t y, uint32_t *rises);

/* Whether e is an entry point of x, and y in the set of x, by a scheme, lent tables and the clauses of the world. */
int search_lent_entry_point(const struct world *w, const struct forest *rows, enum snow_scheme scheme, uint32_t x, uint32_t e);
int search_lent_in_set(const struct world *w, const struct forest *rows, enum snow_scheme scheme, uint32_t x, uint32_t y);

#endif

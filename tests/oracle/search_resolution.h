/*
 * The resolution-path set of a universal, by a walk that is written from
 * rule 14.1: all clauses are looked at again until no further end of a path
 * is found.
 */
#ifndef SEARCH_RESOLUTION_H
#define SEARCH_RESOLUTION_H

#include "calls.h"

/*
 * The set of x in an accepted formula of at most SMALL variables, ascending;
 * gives its length. y, an existential deeper than x, depends on x if paths run
 * from x and from its negation to opposite literals of y.
 */
uint32_t search_resolution_set(const struct formula *f, uint32_t x, uint32_t *list);

#endif

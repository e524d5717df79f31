/* The set of a universal by dependency lists: a slow search, written from rule 13.2. */
#ifndef SEARCH_LISTS_H
#define SEARCH_LISTS_H

#include "list_calls.h"
#include "search.h"

/* The set of x by a scheme, ascending; gives its length. The world is that of the formula and its clauses; it need not be closed. */
uint32_t search_listed_set(const struct world *w, const struct formula *f, const struct lists *d, enum snow_scheme scheme, uint32_t x,
                           uint32_t *list);

#endif

/* A shortest path of clauses for a pair. */
#ifndef SEARCH_PATH_H
#define SEARCH_PATH_H

#include "calls.h"

enum { SEARCHED_CLAUSES = 200 };  /* most clauses of a formula that is searched for paths */

/* A shortest path that the path check accepts for the pair, in an accepted formula; gives its length, 0 if there is none. */
uint32_t search_path(const struct formula *f, uint32_t x, uint32_t y, uint32_t *path);

#endif

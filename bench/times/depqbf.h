/* DepQBF 5.01 beside the library: it reads the same text, and answers the same sets by single questions. */
#ifndef DEPQBF_H
#define DEPQBF_H

#include "families.h"

/* Solvers that are kept side by side, each by its number. */
enum { SOLVERS = 8 };

/*
 * Reads a text that is within the rules, and has the standard dependencies computed; gives the seconds for that. The solver is made anew
 * before, and its last one deleted: neither is counted.
 */
double depqbf_read(unsigned solver, const uint8_t *text, size_t length);

/* Whether y depends on x, for x universal and y existential. */
int depqbf_depends(unsigned solver, uint32_t x, uint32_t y);

#endif

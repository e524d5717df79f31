/* Build and add on random formulas, against the slow search; and the tallies beside a forest. */
#ifndef BUILD_AND_ADD_H
#define BUILD_AND_ADD_H

#include "generator.h"

/* Build; leaves the forest in tables, and the search of the formula closed. */
struct forest compare_build(const struct formula *f, struct world *w, struct tables *t);

/* The formula's own clauses added in turn, from the forest of none: each forest is the searched one, and the last is the built one. */
void compare_in_turn(const struct formula *f, const struct forest *built);

/* Further clauses added to the formula's own forest, held against the search of all its clauses, to which they are joined. */
void compare_adds(const struct formula *f, struct world *w, struct forest *rows);

/* Add, on any well-formed forest and a tally that fits it: the searched forest of the list that the tables stand for, with the clause. */
void compare_add(const struct formula *f, struct forest *rows);

/* Add, on any well-formed forest, with a tally that was damaged. */
void compare_damaged_tally(const struct formula *f, struct forest *rows);

/* Add, on a well-formed forest and each tally that is near the one that fits it. */
void compare_near_tallies(const struct formula *f, const struct forest *rows);

#endif

/* Counts which shapes of formulas, forests and tallies the random tests came across, so that none that matters is missed. */
#ifndef SHAPES_SEEN_H
#define SHAPES_SEEN_H

#include "calls.h"

enum shape {
    SAW_FORMULA,
    SAW_FREE,
    SAW_NO_BLOCKS,
    SAW_MOST_BLOCKS,
    SAW_UNIVERSAL_LAST,
    SAW_NO_CLAUSES,
    SAW_EMPTY_CLAUSE,
    SAW_REPEATED,
    SAW_COMPLEMENTARY,
    SAW_SHORTER,
    SAW_FOREST_WRONG,
    SAW_FOREST_CHANGED,
    SAW_TALLY_WRONG,
    SAW_TALLY_TAKEN,
    SHAPES
};

/* Counts an accepted formula, and each shape that it has. */
void saw_formula(const struct formula *f);

/* Counts a shape that is not of a formula. */
void saw(enum shape what);

/* Prints the counts, and compares that none is too small. */
void compare_shapes_seen(void);

#endif

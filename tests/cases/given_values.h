/* What holds at a line of the written-out cases: for each name, what the last line with that name says. */
#ifndef GIVEN_VALUES_H
#define GIVEN_VALUES_H

#include "calls.h"
#include "case_words.h"

/* The names, as the head of cases.txt explains them. */
enum given_name {
    GIVEN_N,
    GIVEN_PREFIX,
    GIVEN_CLAUSES,
    GIVEN_CLASSES,
    GIVEN_PARENTS,
    GIVEN_COUNTS,
    GIVEN_TALLY,
    GIVEN_CLAUSE,
    GIVEN_TO_CLASSES,
    GIVEN_TO_PARENTS,
    GIVEN_TO_COUNTS,
    GIVEN_TO_TALLY,
    GIVEN_X,
    GIVEN_Y,
    GIVEN_ASKED,
    GIVEN_ROOM,
    GIVEN_ROOMS,
    GIVEN_TEXT,
    GIVEN_FILL,
    GIVEN_TAIL,
    GIVEN_NAMES
};

enum {
    MOST_GIVEN = SNOW_MOST_CLAUSES + 16,        /* numbers of a line */
    MOST_GIVEN_ROWS = SNOW_MOST_VARIABLES + 4   /* rows of a forest table */
};

/* What a line says after its name: its numbers, or, for the names of a text, its words as they stand. */
struct given {
    int said;
    size_t count;
    uint32_t numbers[MOST_GIVEN];
    const char *words;
};

/* Takes the line of a name, the rest of which stays as it is for as long as it holds. Disagrees if it cannot be understood. */
void give(struct word name, const char *rest);

/* What holds for a name. Disagrees if no line has said it. */
const struct given *given(enum given_name name);

/* The first number that holds for a name. */
uint32_t given_number(enum given_name name);

/* The formula that holds. */
struct formula given_formula(void);

/* The forest tables that hold, in rows of their own that a call may change; all is zero in the tally. */
struct forest given_forest(void);

#endif
